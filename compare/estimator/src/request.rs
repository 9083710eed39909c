
// ---- appended to the text by build.rs, the benchmark's too: its request ----

pub(crate) fn request_of(opening: &crate::Opening) -> UncertaintyTruingRequestV1 {
    let prior = |p: &[f64; 2]| NormalPriorV1 { mean: p[0], sigma: p[1] };
    UncertaintyTruingRequestV1 {
        model: TruingModelInputsV1 {
            muzzle_velocity_fps: opening.entered[0],
            ballistic_coefficient: opening.entered[1],
        },
        drop_unit: DropUnit::Mil,
        observations: opening
            .shots
            .iter()
            .map(|s| WeightedTruingObservationV1 { range_yd: s[0], drop: s[1], sigma: s[2] })
            .collect(),
        priors: TruingPriorsV1 {
            muzzle_velocity_fps: opening.speed_prior.as_ref().map(prior),
            ballistic_coefficient: opening.coefficient_prior.as_ref().map(prior),
        },
        predictions: opening
            .distances
            .iter()
            .map(|d| TruingPredictionRequestV1 {
                range_yd: d.distance,
                future_observation_sigma: d.sigma,
            })
            .collect(),
    }
}
