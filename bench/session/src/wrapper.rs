
// ---- appended to the text by build.rs: the way in to its private items ----

/// What `run_uncertainty_truing_v1` does, over the caller's model; the report's line is put behind `line`, if there is one.
pub(crate) fn run(
    opening: &estimator::Opening,
    model: &TruingForwardModel<'_>,
    line: Option<&mut Vec<u8>>,
) -> Result<(), UncertaintyTruingErrorV1> {
    let request = request_of(opening);
    validate_request(&request)?;
    let report = std::hint::black_box(run_with_model(&request, model)?);
    if let Some(line) = line {
        put_report(line, &report);
    }
    Ok(())
}

// Not inlined, so that a profile can tell the line from the run.
#[inline(never)]
fn put_report(line: &mut Vec<u8>, report: &UncertaintyTruingReportV1) {
    line.extend_from_slice(b"(report");
    let mut line = crate::print::Line(line);
    line.count(report.schema_version as usize);
    line.double(report.map_muzzle_velocity_fps);
    line.double(report.map_ballistic_coefficient);
    line.count(report.iterations);
    line.word(if report.converged { "yes" } else { "no" });
    line.group(|line| {
        for prior in [report.priors.muzzle_velocity_fps, report.priors.ballistic_coefficient] {
            line.present(prior, |line, prior| {
                line.double(prior.mean);
                line.double(prior.sigma);
            });
        }
    });
    put_observations(&mut line, &report.observations);
    line.present(report.baseline.as_ref(), |line, baseline| {
        line.double(baseline.muzzle_velocity_fps);
        line.double(baseline.ballistic_coefficient);
        line.double(baseline.chi_square);
        put_observations(line, &baseline.observations);
    });
    line.group(|line| {
        let d = &report.diagnostics;
        line.double(d.chi_square);
        line.double(d.prior_penalty);
        line.double(d.penalized_chi_square);
        line.optional(d.effective_parameter_count);
        line.optional(d.effective_degrees_of_freedom);
        line.optional(d.reduced_chi_square);
        line.double(d.bc_sensitivity_ratio);
        line.double(d.data_condition_number);
        line.double(d.map_scaled_gradient_inf_norm);
        match d.map_convergence_criterion {
            Some(criterion) => line.code(criterion),
            None => line.word("none"),
        }
        line.optional(d.map_objective_poll_radius);
        line.optional(d.map_max_objective_poll_improvement);
        line.count(d.map_objective_poll_evaluations);
    });
    line.group(|line| match &report.approximation {
        TruingApproximationV1::Available(a) => {
            line.word("Available");
            line.group(|line| {
                line.double(a.covariance.mv_variance_fps2);
                line.double(a.covariance.mv_bc_covariance_fps);
                line.double(a.covariance.bc_variance);
            });
            put_interval(line, a.muzzle_velocity_interval_95);
            put_interval(line, a.ballistic_coefficient_interval_95);
            line.double(a.mv_bc_correlation);
            line.double(a.scaled_information_condition_number);
        }
        TruingApproximationV1::Unavailable(failure) => {
            line.word("Unavailable");
            line.code(failure.code);
        }
    });
    line.group(|line| {
        for band in &report.predictive_bands {
            line.group(|line| {
                line.double(band.range_yd);
                line.double(band.predicted_drop);
                for interval in [band.latent_interval_95, band.future_observation_interval_95] {
                    match interval {
                        Some(interval) => put_interval(line, interval),
                        None => line.word("none"),
                    }
                }
            });
        }
    });
    line.group(|line| {
        for warning in &report.warnings {
            line.group(|line| line.code(warning.code));
        }
    });
    line.0.push(b')');
}

fn put_observations(line: &mut crate::print::Line<'_>, observations: &[WeightedTruingObservationResultV1]) {
    line.group(|line| {
        for o in observations {
            line.group(|line| {
                for value in [o.range_yd, o.observed_drop, o.sigma, o.predicted_drop, o.residual, o.standardized_residual] {
                    line.double(value);
                }
            });
        }
    });
}

fn put_interval(line: &mut crate::print::Line<'_>, i: GaussianIntervalV1) {
    line.group(|line| {
        for value in [i.estimate, i.standard_deviation, i.lower, i.upper, i.probability] {
            line.double(value);
        }
    });
}
