//! A stand-in for `statrs`: p-values are left out, so no distribution is made
//! and lme-rs answers NaN for every p-value.

pub mod distribution {
    pub struct FisherSnedecor;

    #[derive(Debug)]
    pub struct LeftOut;

    impl FisherSnedecor {
        pub fn new(_num_df: f64, _den_df: f64) -> Result<FisherSnedecor, LeftOut> {
            Err(LeftOut)
        }
    }

    pub trait ContinuousCDF<X, Y> {
        fn sf(&self, x: X) -> Y;
    }

    impl ContinuousCDF<f64, f64> for FisherSnedecor {
        fn sf(&self, _x: f64) -> f64 {
            f64::NAN
        }
    }
}
