//! A child module of lme-rs's kr_vcov_adj.rs (see build.rs): it reaches the
//! private function of the bench examples (a) and (b), and of `oracle places`.

pub(crate) fn packed(ii: usize, jj: usize, n: usize) -> usize {
    super::index_symmat2vec(ii, jj, n)
}
