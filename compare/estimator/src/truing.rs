//! Stand-in for `crate::truing`: what the estimator's text uses of it, with the
//! flight solver replaced by a callback.

use std::cell::RefCell;
use std::error::Error;
use std::panic::Location;

use crate::Place;

#[derive(Debug, Clone, Copy, PartialEq, Eq)]
pub enum DropUnit {
    Mil,
    Moa,
    In,
}

impl DropUnit {
    // Copied from truing.rs.
    pub fn express_drop_m(self, drop_m: f64, z_m: f64) -> f64 {
        match self {
            // (drop_m / z_m) radians * 1000 mrad/rad
            DropUnit::Mil => (drop_m / z_m) * 1000.0,
            // (drop_m / z_m) radians * (180/pi) deg/rad * 60 min/deg
            DropUnit::Moa => (drop_m / z_m) * (180.0 / std::f64::consts::PI) * 60.0,
            // linear drop, meters -> inches
            DropUnit::In => drop_m / 0.0254,
        }
    }
}

include!("copied.rs");

#[derive(Debug, Clone)]
pub struct TruingModelInputsV1 {
    pub muzzle_velocity_fps: f64,
    pub ballistic_coefficient: f64,
}

impl TruingModelInputsV1 {
    /// The scope's range test (S6), in place of the model's own.
    pub(crate) fn validate(&self) -> Result<(), String> {
        match crate::entered_fault(self.muzzle_velocity_fps, self.ballistic_coefficient) {
            Some(which) => Err(format!("entered value {which}")),
            None => Ok(()),
        }
    }

    /// Only `run_uncertainty_truing_v1` calls this, and nothing calls that.
    pub(crate) fn with_forward_model<T>(
        &self,
        _: DropUnit,
        _: impl FnOnce(&TruingForwardModel<'_>) -> T,
    ) -> T {
        unreachable!("the flight solver is left out")
    }
}

/// Takes where the question was put, its point and its number of distances;
/// gives one entry per distance, or nothing for a refused point.
pub(crate) type Ask<'a> = dyn FnMut(Place, f64, f64, usize) -> Option<Vec<Option<f64>>> + 'a;

pub(crate) struct TruingForwardModel<'a> {
    ask: RefCell<&'a mut Ask<'a>>,
}

impl<'a> TruingForwardModel<'a> {
    pub(crate) fn new(ask: &'a mut Ask<'a>) -> Self {
        Self { ask: RefCell::new(ask) }
    }

    /// The caller's line tells which list is asked about: the observations' and
    /// the requested distances may be equal, so their values cannot.
    #[track_caller]
    pub(crate) fn predict_many_in_unit(
        &self,
        mv_fps: f64,
        bc: f64,
        ranges_yd: &[f64],
        _: DropUnit,
    ) -> Result<Vec<Option<f64>>, Box<dyn Error>> {
        if ranges_yd.is_empty() {
            return Ok(Vec::new());
        }
        let place = Place::at(Location::caller());
        let mut ask = self.ask.borrow_mut();
        (**ask)(place, mv_fps, bc, ranges_yd.len()).ok_or_else(|| "the solver refused".into())
    }
}
