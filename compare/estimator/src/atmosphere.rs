//! Stand-in for `crate::atmosphere`: air is the solver's matter here, so no
//! error ever is one of these.

use std::error::Error;

#[derive(Debug, Clone)]
pub enum AtmosphereError {}

impl AtmosphereError {
    pub fn in_error<'a>(_: &'a (dyn Error + 'static)) -> Option<&'a AtmosphereError> {
        None
    }
    pub fn field(&self) -> &'static str {
        match *self {}
    }
    pub fn reason(&self) -> &'static str {
        match *self {}
    }
    pub fn value(&self) -> f64 {
        match *self {}
    }
    pub fn altitude_m(&self) -> Option<f64> {
        match *self {}
    }
    pub fn explanation(&self) -> &'static str {
        match *self {}
    }
}
