//! Stand-in for the text's `crate::truing`, as in the comparison, but with nothing between the text and the solver.
use std::cell::Cell;
use std::error::Error;

use crate::Solver;

#[derive(Debug, Clone, Copy, PartialEq, Eq)]
pub enum DropUnit {
    Mil,
}

include!("../../../compare/estimator/src/copied.rs");

#[derive(Debug, Clone)]
pub struct TruingModelInputsV1 {
    pub muzzle_velocity_fps: f64,
    pub ballistic_coefficient: f64,
}

impl TruingModelInputsV1 {
    pub(crate) fn validate(&self) -> Result<(), String> {
        if !(TRUING_MV_MIN_FPS..=TRUING_MV_MAX_FPS).contains(&self.muzzle_velocity_fps) {
            return Err("entered speed".to_string());
        }
        if !(TRUING_BC_MIN..=TRUING_BC_MAX).contains(&self.ballistic_coefficient) {
            return Err("entered coefficient".to_string());
        }
        Ok(())
    }

    /// Only `run_uncertainty_truing_v1` calls this, and nothing calls that.
    pub(crate) fn with_forward_model<T>(&self, _: DropUnit, _: impl FnOnce(&TruingForwardModel<'_>) -> T) -> T {
        unreachable!("the model is the caller's")
    }
}

pub(crate) struct TruingForwardModel<'a> {
    solver: Solver<'a>,
    asked: Cell<u64>,
}

impl<'a> TruingForwardModel<'a> {
    pub(crate) fn new(solver: Solver<'a>) -> Self {
        Self { solver, asked: Cell::new(0) }
    }

    /// The number of questions so far. An empty list asks nothing.
    pub(crate) fn asked(&self) -> u64 {
        self.asked.get()
    }

    pub(crate) fn predict_many_in_unit(&self, mv_fps: f64, bc: f64, ranges_yd: &[f64], _: DropUnit) -> Result<Vec<Option<f64>>, Box<dyn Error>> {
        if ranges_yd.is_empty() {
            return Ok(Vec::new());
        }
        self.asked.set(self.asked.get() + 1);
        self.solver.solve(mv_fps, bc, ranges_yd).ok_or_else(|| "the solver refused".into())
    }
}
