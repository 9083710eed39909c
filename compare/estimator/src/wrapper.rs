// ---- appended to the text by build.rs: the way in to its private items ----

/// The text's own judgement of a request: its message, if it refuses.
pub(crate) fn fault(opening: &crate::Opening) -> Option<String> {
    match validate_request(&request_of(opening)) {
        Ok(()) => None,
        Err(error) => Some(message_of(error)),
    }
}

pub(crate) fn run(
    opening: &crate::Opening,
    model: &TruingForwardModel<'_>,
) -> Result<crate::Report, String> {
    report(opening, model).map(|report| print_report(&[report]))
}

/// The text's own report.
pub(crate) fn report(
    opening: &crate::Opening,
    model: &TruingForwardModel<'_>,
) -> Result<UncertaintyTruingReportV1, String> {
    run_with_model(&request_of(opening), model).map_err(message_of)
}

/// What may not go by the row of a coverage table (L2): all but the ends and the levels of
/// the intervals and whether one crosses the bounds.
pub(crate) fn rowless(report: &UncertaintyTruingReportV1) -> String {
    let blank = |i: GaussianIntervalV1| GaussianIntervalV1 {
        lower: 0.0,
        upper: 0.0,
        probability: 0.0,
        ..i
    };
    let mut report = report.clone();
    if let TruingApproximationV1::Available(a) = &mut report.approximation {
        a.muzzle_velocity_interval_95 = blank(a.muzzle_velocity_interval_95);
        a.ballistic_coefficient_interval_95 = blank(a.ballistic_coefficient_interval_95);
    }
    for band in &mut report.predictive_bands {
        band.latent_interval_95 = band.latent_interval_95.map(blank);
        band.future_observation_interval_95 = band.future_observation_interval_95.map(blank);
    }
    let crosses = TruingUncertaintyWarningCodeV1::IntervalCrossesFitBounds;
    report.warnings.retain(|warning| warning.code != crosses);
    // As text, so that one not-a-number equals another and the zeros differ.
    format!("{report:?}")
}

fn message_of(error: UncertaintyTruingErrorV1) -> String {
    match error {
        UncertaintyTruingErrorV1::Atmosphere(air) => match air {},
        UncertaintyTruingErrorV1::InvalidInput(message)
        | UncertaintyTruingErrorV1::ForwardModel(message) => message,
    }
}

/// A report by the rows of a table: the intervals of each, all else of the last.
pub(crate) fn print_report(rows: &[UncertaintyTruingReportV1]) -> crate::Report {
    let report = rows.last().expect("a row");
    let each = |of: &dyn Fn(&UncertaintyTruingReportV1) -> Option<GaussianIntervalV1>| {
        rows.iter().map(of).collect::<Vec<_>>()
    };
    let mut out = crate::print::Printer::new();
    out.word("schema_version", report.schema_version);
    out.double("map_muzzle_velocity_fps", report.map_muzzle_velocity_fps);
    out.double("map_ballistic_coefficient", report.map_ballistic_coefficient);
    out.word("iterations", report.iterations);
    out.truth("converged", report.converged);
    out.group(|out| {
        for prior in [report.priors.muzzle_velocity_fps, report.priors.ballistic_coefficient] {
            out.present("priors", prior, |out, prior| {
                out.double("priors", prior.mean);
                out.double("priors", prior.sigma);
            });
        }
    });
    print_observations(&mut out, false, &report.observations);
    out.present("baseline", report.baseline.as_ref(), |out, baseline| {
        out.double("baseline.muzzle_velocity_fps", baseline.muzzle_velocity_fps);
        out.double("baseline.ballistic_coefficient", baseline.ballistic_coefficient);
        out.double("baseline.chi_square", baseline.chi_square);
        print_observations(out, true, &baseline.observations);
    });
    out.group(|out| {
        let d = &report.diagnostics;
        out.double("chi_square", d.chi_square);
        out.double("prior_penalty", d.prior_penalty);
        out.double("penalized_chi_square", d.penalized_chi_square);
        out.optional("effective_parameter_count", d.effective_parameter_count);
        out.optional("effective_degrees_of_freedom", d.effective_degrees_of_freedom);
        out.optional("reduced_chi_square", d.reduced_chi_square);
        out.double("bc_sensitivity_ratio", d.bc_sensitivity_ratio);
        out.double("data_condition_number", d.data_condition_number);
        out.double("map_scaled_gradient_inf_norm", d.map_scaled_gradient_inf_norm);
        match d.map_convergence_criterion {
            Some(criterion) => out.code("map_convergence_criterion", criterion),
            None => out.word("map_convergence_criterion", "none"),
        }
        out.optional("map_objective_poll_radius", d.map_objective_poll_radius);
        out.optional(
            "map_max_objective_poll_improvement",
            d.map_max_objective_poll_improvement,
        );
        out.word("map_objective_poll_evaluations", d.map_objective_poll_evaluations);
    });
    out.group(|out| match &report.approximation {
        TruingApproximationV1::Available(a) => {
            out.word("approximation", "Available");
            out.group(|out| {
                out.double("covariance", a.covariance.mv_variance_fps2);
                out.double("covariance", a.covariance.mv_bc_covariance_fps);
                out.double("covariance", a.covariance.bc_variance);
            });
            for (i, name) in
                ["muzzle_velocity_interval_95", "ballistic_coefficient_interval_95"]
                    .into_iter()
                    .enumerate()
            {
                print_intervals(out, name, &each(&|report| parameter_intervals(report)[i]));
            }
            out.double("mv_bc_correlation", a.mv_bc_correlation);
            out.double(
                "scaled_information_condition_number",
                a.scaled_information_condition_number,
            );
        }
        TruingApproximationV1::Unavailable(failure) => {
            out.word("approximation", "Unavailable");
            out.code("failure code", failure.code);
        }
    });
    out.group(|out| {
        for (i, band) in report.predictive_bands.iter().enumerate() {
            out.group(|out| {
                out.double("bands.range_yd", band.range_yd);
                out.double("bands.predicted_drop", band.predicted_drop);
                let latent = each(&|report| report.predictive_bands[i].latent_interval_95);
                print_intervals(out, "bands.latent_interval_95", &latent);
                let future =
                    each(&|report| report.predictive_bands[i].future_observation_interval_95);
                print_intervals(out, "bands.future_observation_interval_95", &future);
            });
        }
    });
    out.group(|out| {
        for warning in &report.warnings {
            out.group(|out| out.code("warnings", warning.code));
        }
    });
    let fit = (report.map_muzzle_velocity_fps, report.map_ballistic_coefficient);
    out.finish(fit, sheet_of(report))
}

/// What the report's page shows: the fit's own values, never the baseline's.
fn sheet_of(report: &UncertaintyTruingReportV1) -> crate::Sheet {
    let with_ends = |value: f64, interval: Option<GaussianIntervalV1>| {
        [Some(value), interval.map(|i| i.lower), interval.map(|i| i.upper)]
    };
    let [speed, coefficient] = parameter_intervals(report);
    let observations = report.observations.iter();
    let bands = report.predictive_bands.iter();
    let warnings = report.warnings.iter();
    crate::Sheet {
        speed: with_ends(report.map_muzzle_velocity_fps, speed),
        coefficient: with_ends(report.map_ballistic_coefficient, coefficient),
        chi_square: report.diagnostics.chi_square,
        shots: observations.map(|o| [o.range_yd, o.observed_drop, o.predicted_drop]).collect(),
        distances: bands.map(|b| with_ends(b.predicted_drop, b.latent_interval_95)).collect(),
        warnings: warnings.map(|w| format!("{:?}", w.code)).collect(),
    }
}

fn print_observations(
    out: &mut crate::print::Printer,
    baseline: bool,
    observations: &[WeightedTruingObservationResultV1],
) {
    let name = |fitted, entered| if baseline { entered } else { fitted };
    out.group(|out| {
        for o in observations {
            out.group(|out| {
                let echoed = name("observations, echoed", "baseline.observations, echoed");
                out.double(echoed, o.range_yd);
                out.double(echoed, o.observed_drop);
                out.double(echoed, o.sigma);
                let computed = name("observations, computed", "baseline.observations, computed");
                out.double(computed, o.predicted_drop);
                out.double(computed, o.residual);
                out.double(computed, o.standardized_residual);
            });
        }
    });
}

/// The speed's and the coefficient's interval.
fn parameter_intervals(report: &UncertaintyTruingReportV1) -> [Option<GaussianIntervalV1>; 2] {
    match &report.approximation {
        TruingApproximationV1::Available(a) => {
            [Some(a.muzzle_velocity_interval_95), Some(a.ballistic_coefficient_interval_95)]
        }
        TruingApproximationV1::Unavailable(_) => [None, None],
    }
}

/// An interval by the rows of a table: one row's is a record, several make a list of
/// records, and an absent one is a single word.
fn print_intervals(
    out: &mut crate::print::Printer,
    name: &'static str,
    rows: &[Option<GaussianIntervalV1>],
) {
    let present: Vec<GaussianIntervalV1> = rows.iter().copied().flatten().collect();
    assert!(present.is_empty() || present.len() == rows.len(), "present by every row or by none");
    match present.as_slice() {
        [] => out.word(name, "none"),
        [one] => out.group(|out| print_fields(out, name, *one)),
        several => out.group(|out| {
            for one in several {
                out.group(|out| print_fields(out, name, *one));
            }
        }),
    }
}

fn print_fields(out: &mut crate::print::Printer, name: &'static str, i: GaussianIntervalV1) {
    for value in [i.estimate, i.standard_deviation, i.lower, i.upper, i.probability] {
        out.double(name, value);
    }
}

// The leaves of the bench figures (S24 of docs/SCOPE.md).

pub(crate) fn inverse(a: [f64; 3]) -> Result<[f64; 4], String> {
    match (Symmetric2 { a00: a[0], a01: a[1], a11: a[2] }).inverse_with_condition() {
        Ok((i, condition)) => Ok([i.a00, i.a01, i.a11, condition]),
        Err(code) => Err(format!("{code:?}")),
    }
}

pub(crate) fn condition(a: [f64; 3]) -> f64 {
    column_condition(Symmetric2 { a00: a[0], a01: a[1], a11: a[2] })
}

pub(crate) fn deviation(variance: f64) -> Option<f64> {
    GaussianIntervalV1::from_variance(0.0, variance).map(|i| i.standard_deviation)
}

pub(crate) fn material(current: f64, candidate: f64) -> bool {
    objective_improvement_is_material(current, candidate)
}

pub(crate) fn sum(opening: &crate::Opening, model: &TruingForwardModel<'_>) -> Option<f64> {
    let [mv, bc] = opening.entered;
    objective(&request_of(opening), model, mv, bc).ok()
}
