//! Random and damaged bytes through each of the two direct C functions; the
//! archive's two are in archive.rs.
//!
//!     cargo test --offline --release --test hostile
//!     cargo test --offline --release --test hostile -- --calls 100000000 --seed 9
//!
//! Each call is made on bytes that lie at an end of a fenced piece of memory,
//! so that a read or write past that end stops the program, with canary bytes
//! on the other side. The number must be the one of the independent reader; a
//! refusal must leave the answer bytes as they were; an answer must have the
//! form of an answer. Some files have weights of zero, of either sign, which tear
//! specimens, and some a block with a wrong number, a bit of it turned, or a byte
//! behind it. A failing call prints its seed: `--calls 1 --seed THAT` makes it
//! again. `--trace` prints each seed before its call, for a call that
//! does not come back.

mod fence;
mod form;

use reader::numbers::Numbers;
use reader::random::Random;
use reader::torn::Torn;
use reader::tries::{Call, Tries};
use reader::vectors::hex;
use std::collections::BTreeMap;

const CALLS: u64 = 1_000_000;
const ENTRY: usize = pull::ENTRY_BYTES;

/// A C function, and what is known of it.
struct Function {
    name: &'static str,
    call: Call,
    fill: fn(&[u8], &mut [u8]) -> u32,
    answer_length: usize,
}

fn functions() -> Vec<Function> {
    vec![
        Function {
            name: "pull_kenward_roger",
            call: Call::KenwardRoger,
            fill: pull::kenward_roger_fill,
            answer_length: pull::KENWARD_ROGER_BYTES,
        },
        Function {
            name: "pull_satterthwaite",
            call: Call::Satterthwaite,
            fill: pull::satterthwaite_fill,
            answer_length: ENTRY,
        },
    ]
}

struct Flags {
    calls: u64,
    seed: u64,
    trace: bool,
}

/// Words that are none of the flags (`cargo test` may pass some) are passed over.
fn flags() -> Flags {
    let words: Vec<String> = std::env::args().collect();
    let number = |name: &str, usual: u64| match words.iter().position(|w| w == name) {
        None => usual,
        Some(at) => words
            .get(at + 1)
            .and_then(|w| w.parse().ok())
            .unwrap_or_else(|| panic!("{name} needs a whole number")),
    };
    Flags {
        calls: number("--calls", CALLS),
        seed: number("--seed", 1),
        trace: words.iter().any(|w| w == "--trace"),
    }
}

fn main() {
    let flags = flags();
    for function in functions() {
        let tries = Tries::new(function.call);
        let (mut records, mut answer) = (fence::Fenced::new(), fence::Fenced::new());
        let (mut tally, mut torn, mut wrong) = (BTreeMap::new(), BTreeMap::new(), BTreeMap::new());
        for seed in flags.seed..flags.seed + flags.calls {
            if flags.trace {
                eprintln!("{} seed {seed}", function.name);
            }
            let mut random = Random::new(seed);
            let file = tries.file(&mut random);
            let number = one_call(&function, &file, &mut random, &mut records, &mut answer)
                .unwrap_or_else(|text| panic!("{} seed {seed}: {text}", function.name));
            *tally.entry(number).or_insert(0u64) += 1;
            if Torn::of(&file).is_some() {
                *torn.entry(number).or_insert(0u64) += 1;
            }
            if Numbers::of(&file).is_some_and(|numbers| !numbers.all_right()) {
                *wrong.entry(number).or_insert(0u64) += 1;
            }
        }
        println!("{}: {} calls, by number returned: {tally:?}", function.name, flags.calls);
        if function.call == Call::KenwardRoger {
            println!("  of these with torn specimens: {torn:?}");
            println!("  of these with a wrong value in a block: {wrong:?}");
            let met = |tally: &BTreeMap<u32, u64>, numbers: &[u32]| {
                numbers.iter().all(|number| tally.get(number).is_some_and(|&calls| calls >= 100))
            };
            assert!(flags.calls < CALLS || met(&torn, &[0, 1, 2, 3, 4, 6, 12, 13]));
            assert!(flags.calls < CALLS || met(&wrong, &[1, 2, 12, 13]) && wrong.len() == 4);
        }
    }
}

/// Makes one call and looks at all that it must keep. The number returned.
fn one_call(
    function: &Function,
    file: &[u8],
    random: &mut Random,
    records: &mut fence::Fenced,
    answer: &mut fence::Fenced,
) -> Result<u32, String> {
    let stated = function.answer_length;
    let length = if random.once_in(16) { random.below(2 * stated) } else { stated };
    let (canary, before) = (random.bits() as u8, random.bits() as u8);
    let ends = random.below(4);
    let lent_records = records.lend(file.len(), ends & 1 == 0, canary);
    lent_records.copy_from_slice(file);
    let lent_answer = answer.lend(length, ends & 2 == 0, canary);
    lent_answer.fill(before);

    let number = (function.fill)(lent_records, lent_answer);

    let text = |what: &str| {
        Err(format!("{what}; returned {number}, {length} answer bytes, file {}", hex(file)))
    };
    if lent_records != file {
        return text("the records were changed");
    }
    let verdict = function.call.verdict(file);
    let expected = match verdict {
        _ if length != stated => number == 1,
        Err(refusal) => number == refusal,
        Ok(_) => number == 0 || function.call.later_refusals().contains(&number),
    };
    if !expected {
        return text(&format!("the reader says {verdict:?}"));
    }
    match (number, verdict) {
        (0, Ok(shape)) => {
            let used = |i: usize| match function.call {
                Call::Satterthwaite => true,
                Call::KenwardRoger if i == 6 => shape.contrast,
                Call::KenwardRoger => i < shape.coefficients,
            };
            if let Err(what) = form::check(lent_answer, used) {
                return text(&format!("{what}: {}", hex(lent_answer)));
            }
        }
        _ if lent_answer.iter().any(|&b| b != before) => {
            return text("a refusal wrote answer bytes")
        }
        _ => {}
    }
    if !records.whole() || !answer.whole() {
        return text("a canary byte was changed");
    }
    Ok(number)
}
