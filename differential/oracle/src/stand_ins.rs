//! Stand-ins for modules of the original that are not at hand or belong to what document 01 leaves out. None of them
//! is reached by the four calls; they have what the files in use name.

pub mod chernoff {
    use crate::{error::SemiflowError, float::SemiflowFloat, scratch::ScratchPool};
    pub struct Growth<F>(pub F, pub F);
    impl<F: SemiflowFloat> Growth<F> {
        pub fn new(a: F, b: F) -> Self {
            Growth(a, b)
        }
        pub fn contraction() -> Self {
            Growth(F::one(), F::zero())
        }
    }
    pub trait ChernoffFunction<F: SemiflowFloat> {
        type S;
        fn order(&self) -> u32;
        fn growth(&self) -> Growth<F>;
        fn apply_into(&self, tau: F, src: &Self::S, dst: &mut Self::S, scratch: &mut ScratchPool<F>) -> Result<(), SemiflowError>;
    }
}

pub mod diffusion4 {
    #[derive(Clone)]
    pub struct Grid<F> {
        pub n: usize,
        dx: F,
    }
    impl<F: Copy> Grid<F> {
        pub fn dx(&self) -> F {
            self.dx
        }
    }
    #[derive(Clone)]
    pub struct Diffusion4thChernoff<F> {
        pub grid: Grid<F>,
        pub a_norm_bound: F,
    }
}

pub mod diffusion4_zeta4 {
    pub struct DivFormFaces;
    impl DivFormFaces {
        pub fn new(_: &crate::diffusion4::Diffusion4thChernoff<f64>, _: usize) -> Self {
            unreachable!()
        }
        pub fn n(&self) -> usize {
            unreachable!()
        }
        pub fn apply(&self, _: &[f64], _: &mut [f64]) {
            unreachable!()
        }
        pub fn faces(&self) -> (&[f64], &[f64], f64) {
            unreachable!()
        }
    }
}

pub mod grid_fn {
    pub struct GridFn1D<F> {
        pub values: Vec<F>,
    }
}

pub mod graph {
    pub struct Laplacian<F>(F);
    impl<F: Copy> Laplacian<F> {
        pub fn n_nodes(&self) -> usize {
            unreachable!()
        }
        pub fn spectral_radius_bound(&self) -> F {
            unreachable!()
        }
        pub fn row_ptr(&self) -> &[usize] {
            unreachable!()
        }
        pub fn col_idx(&self) -> &[u32] {
            unreachable!()
        }
        pub fn vals(&self) -> &[F] {
            unreachable!()
        }
        pub fn apply_into_slice(&self, _: &[F], _: &mut [F]) {
            unreachable!()
        }
    }
}

pub mod graph_krylov {
    pub const MAX_DENSE_N: usize = 12;
}

pub mod graph_signal {
    pub struct GraphSignal<F>(Vec<F>);
    impl<F> GraphSignal<F> {
        pub fn values(&self) -> &[F] {
            &self.0
        }
    }
    impl<F> crate::state::State<F> for GraphSignal<F> {
        fn zero_into(&mut self) {
            unreachable!()
        }
        fn axpy_into_slice(&mut self, _: F, _: &[F]) {
            unreachable!()
        }
    }
}

pub mod matrix_pade {
    pub fn mat_exp_pade13<F, const N: usize>(_: &[[F; N]; N]) -> Result<[[F; N]; N], crate::error::SemiflowError> {
        unreachable!()
    }
}

pub mod state {
    pub trait State<F> {
        fn zero_into(&mut self);
        fn axpy_into_slice(&mut self, a: F, x: &[F]);
    }
}

pub mod symmetric_operator {
    use crate::graph::Laplacian;
    pub trait SymmetricLinearOp<F>: Send + Sync {
        fn n(&self) -> usize;
        fn apply_into_slice(&self, src: &[F], dst: &mut [F]);
        fn lambda_max_bound(&self) -> F;
        fn csr_view(&self) -> Option<(&[usize], &[u32], &[F])>;
    }
    pub struct SymmetricOperator<F> {
        pub inner: std::sync::Arc<Laplacian<F>>,
    }
    impl<F> SymmetricOperator<F> {
        pub fn n(&self) -> usize {
            unreachable!()
        }
    }
}
