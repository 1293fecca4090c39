//! Which branches of document 01 a run has taken, for the vectors' summary.

use std::cell::RefCell;
use std::collections::BTreeMap;

thread_local! {
    static HITS: RefCell<BTreeMap<&'static str, u32>> = const { RefCell::new(BTreeMap::new()) };
}

/// Notes that a branch was taken.
pub fn hit(branch: &'static str) {
    HITS.with(|h| *h.borrow_mut().entry(branch).or_insert(0) += 1);
}

/// Notes it under a condition, which is handed back.
pub fn hit_if(holds: bool, branch: &'static str) -> bool {
    if holds {
        hit(branch);
    }
    holds
}

/// The branches since the last call.
pub fn take() -> BTreeMap<&'static str, u32> {
    HITS.with(|h| std::mem::take(&mut *h.borrow_mut()))
}
