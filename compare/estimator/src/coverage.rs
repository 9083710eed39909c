//! A coverage table's row (L2), and the one that the text's intervals are made by in the
//! variant whose factor and level give way to it.

use std::cell::Cell;

#[derive(Debug, Clone, Copy, PartialEq)]
pub struct Row {
    pub level: f64,
    pub factor: f64,
}

thread_local! {
    static ROW: Cell<Option<Row>> = const { Cell::new(None) };
}

/// Runs something under a row.
pub(crate) fn under<T>(row: Row, run: impl FnOnce() -> T) -> T {
    let before = ROW.replace(Some(row));
    let outcome = run();
    ROW.set(before);
    outcome
}

fn row() -> Row {
    ROW.get().expect("the text is run under a row")
}

/// Stands in the text for `NORMAL_95_TWO_SIDED_Z`.
pub(crate) fn factor() -> f64 {
    row().factor
}

/// Stands in the text for `TRUING_UNCERTAINTY_INTERVAL_LEVEL_V1`.
pub(crate) fn level() -> f64 {
    row().level
}
