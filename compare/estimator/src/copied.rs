// What the estimator's text uses of truing.rs, copied from it; the benchmark includes it too.

pub(crate) const TRUING_MV_MIN_FPS: f64 = 1000.0;
pub(crate) const TRUING_MV_MAX_FPS: f64 = 5000.0;
pub(crate) const TRUING_BC_MIN: f64 = 0.05;
pub(crate) const TRUING_BC_MAX: f64 = 2.0;
pub(crate) const TRUING_MIN_BC_SENSITIVITY_RATIO: f64 = 0.20;
pub(crate) const TRUING_MAX_CONDITION_NUMBER: f64 = 1.0e3;

#[derive(Debug, Clone, Copy)]
pub(crate) struct TruingJacobianRow {
    pub predicted_drop: f64,
    pub d_drop_d_mv: f64,
    pub d_drop_d_bc: f64,
}

// The attribute alone is added, to pass the line on.
#[track_caller]
pub(crate) fn truing_jacobian_rows(
    model: &TruingForwardModel<'_>,
    mv_fps: f64,
    bc: f64,
    ranges_yd: &[f64],
    unit: DropUnit,
) -> Result<Vec<Option<TruingJacobianRow>>, Box<dyn Error>> {
    let hmv = (mv_fps * 1e-3).max(0.5);
    let hbc = (bc * 1e-3).max(1e-4);
    let nominal = model.predict_many_in_unit(mv_fps, bc, ranges_yd, unit)?;
    let mv_plus = model.predict_many_in_unit(mv_fps + hmv, bc, ranges_yd, unit)?;
    let mv_minus = model.predict_many_in_unit(mv_fps - hmv, bc, ranges_yd, unit)?;
    let bc_plus = model.predict_many_in_unit(mv_fps, bc + hbc, ranges_yd, unit)?;
    let bc_minus = model.predict_many_in_unit(mv_fps, bc - hbc, ranges_yd, unit)?;

    Ok((0..ranges_yd.len())
        .map(|i| {
            Some(TruingJacobianRow {
                predicted_drop: nominal[i]?,
                d_drop_d_mv: (mv_plus[i]? - mv_minus[i]?) / (2.0 * hmv),
                d_drop_d_bc: (bc_plus[i]? - bc_minus[i]?) / (2.0 * hbc),
            })
        })
        .collect())
}
