//! Stand-ins for the items of lme-rs's own crate that its four files use.
//!
//! Fitting, formulas and design matrices are left out by document 01, so the
//! data frame already holds what they would yield.

use ndarray::{Array1, Array2};
use polars::prelude::DataFrame;

pub type Result<T> = std::result::Result<T, LmeError>;

#[derive(Debug, Clone)]
pub enum LmeError {
    NotImplemented { feature: String },
    InvalidInput { message: String },
    LinearAlgebra { message: String },
}

impl LmeError {
    pub fn text(&self) -> &str {
        match self {
            LmeError::NotImplemented { feature } => feature,
            LmeError::InvalidInput { message } | LmeError::LinearAlgebra { message } => message,
        }
    }
}

/// The fields of a fit that the tests read.
#[derive(Debug, Clone)]
pub struct LmeFit {
    pub theta: Option<Array1<f64>>,
    pub formula: Option<String>,
    pub sigma2: Option<f64>,
    pub factors: Vec<String>,
    pub reml: Option<f64>,
    pub family: Option<String>,
    pub coefficients: Array1<f64>,
}

impl LmeFit {
    pub fn ensure_converged(&self) -> Result<()> {
        Ok(())
    }
}

pub mod formula {
    pub struct Ast {
        pub factors: Vec<String>,
    }

    pub fn parse(_formula: &str) -> super::Result<Ast> {
        Ok(Ast { factors: Vec::new() })
    }
}

pub mod model_matrix {
    use super::{formula::Ast, Array2, DataFrame};

    pub struct DesignMatrices {
        pub x: Array2<f64>,
        pub data: DataFrame,
    }

    pub fn build_design_matrices(_ast: &Ast, data: &DataFrame) -> super::Result<DesignMatrices> {
        Ok(DesignMatrices { x: data.x.clone(), data: data.clone() })
    }
}

pub mod model {
    use super::math::{LmmData, ReBlock, TransposedZ};
    use super::model_matrix::DesignMatrices;
    use super::{Array1, LmeFit};

    pub fn inference_lmm_data(_fit: &LmeFit, matrices: &DesignMatrices) -> super::Result<LmmData> {
        let data = &matrices.data;
        let blocks = data.blocks.iter();
        Ok(LmmData {
            y: Array1::zeros(data.x.nrows()),
            zt: TransposedZ::new(&data.z),
            re_blocks: blocks
                .map(|b| ReBlock { m: b.m, k: b.k, theta_len: b.k * (b.k + 1) / 2 })
                .collect(),
            weights: data.weights.clone(),
            phi: data.phi.clone(),
        })
    }
}

pub mod math {
    use super::{Array1, Array2};

    pub struct ReBlock {
        pub m: usize,
        pub k: usize,
        pub theta_len: usize,
    }

    /// Zᵀ as a list of cells, for the sparse matrix of lme-rs.
    pub struct TransposedZ {
        columns: usize,
        cells: Vec<(f64, (usize, usize))>,
    }

    impl TransposedZ {
        pub fn new(z: &Array2<f64>) -> TransposedZ {
            let mut cells = Vec::new();
            for i in 0..z.nrows() {
                for j in 0..z.ncols() {
                    cells.push((z[[i, j]], (j, i)));
                }
            }
            TransposedZ { columns: z.ncols(), cells }
        }
        pub fn rows(&self) -> usize {
            self.columns
        }
        pub fn iter(&self) -> impl Iterator<Item = (&f64, (usize, usize))> {
            self.cells.iter().map(|(v, at)| (v, *at))
        }
    }

    pub struct LmmData {
        pub y: Array1<f64>,
        pub zt: TransposedZ,
        pub re_blocks: Vec<ReBlock>,
        pub weights: Option<Array1<f64>>,
        pub phi: Array2<f64>,
    }

    pub struct Evaluation {
        pub l_x: Array2<f64>,
    }

    impl LmmData {
        /// A factor whose inverse K has KᵀK = Φ, the Φ of the input.
        pub fn evaluate(&self, _theta: &[f64], _reml: bool) -> Evaluation {
            Evaluation { l_x: Array2::with_gram(self.phi.clone()) }
        }
    }
}
