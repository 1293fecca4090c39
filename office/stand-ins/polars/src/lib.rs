//! A stand-in for `polars`: what a data frame would yield after the building
//! of the design matrices, which document 01 leaves out.

pub mod prelude {
    use ndarray::{Array1, Array2};

    /// One block of random effects: m groups of k effects.
    #[derive(Debug, Clone, Copy)]
    pub struct BlockShape {
        pub m: usize,
        pub k: usize,
    }

    #[derive(Debug, Clone)]
    pub struct DataFrame {
        pub x: Array2<f64>,
        pub z: Array2<f64>,
        pub blocks: Vec<BlockShape>,
        pub weights: Option<Array1<f64>>,
        /// Φ in residual units, an input of document 01.
        pub phi: Array2<f64>,
    }
}
