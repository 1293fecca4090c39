// The steps by lme-rs's functions. This text is compiled twice, in two modules of
// lme_run.rs: by the files as they are, and by their copies that read the table in
// force. `ddf`, `kenward_roger`, `kr_modcomp` and `kr_vcov_adj` are the one or the
// other.

use super::{array, fit, frame, matrices, number, same, Adjusted, Run, Verdict, Verdicts};
use crate::reader::archive::{Archive, Tests};
use crate::reader::{Refusal, SattSeries, Series};
use kr_modcomp::KenwardRogerModcompData;
use listed_algebra::Matrix;
use ndarray::{Array1, Array2};

/// `kenward_roger_modcomp_data` as lme-rs has it: in residual units and scaled.
fn adjust_whole(series: &Series) -> Result<(Adjusted, KenwardRogerModcompData), Refusal> {
    let data = frame(series);
    // With sigma2 = 1 the scaling changes no bit, so this is the output in
    // residual units, of which no function of lme-rs gives Φ_A and P by itself.
    let unit = kr_vcov_adj::kenward_roger_modcomp_data(&fit(series, 1.0), &data).map_err(number)?;
    let rotations = ndarray_linalg::last_rotations();
    let ie = ndarray_linalg::last_eigh().expect("IE has been through eigh");
    let scaled = kr_vcov_adj::kenward_roger_modcomp_data(&fit(series, series.sigma2), &data)
        .map_err(number)?;
    let adjusted = Adjusted {
        phi_a: unit.phi_a.to_matrix(),
        p: matrices(&unit.p_list),
        w: unit.w.to_matrix(),
        scaled_phi: scaled.phi.to_matrix(),
        scaled_phi_a: scaled.phi_a.to_matrix(),
        scaled_p: matrices(&scaled.p_list),
        ie,
        rotations,
    };
    Ok((adjusted, scaled))
}

/// The adjustment, and the late refusal 4 behind it, which is document 01's own.
pub fn adjust(series: &Series) -> Result<Adjusted, Refusal> {
    Ok(adjust_finite(series)?.0)
}

fn adjust_finite(series: &Series) -> Result<(Adjusted, KenwardRogerModcompData), Refusal> {
    let (adjusted, data) = adjust_whole(series)?;
    if adjusted.finite() {
        Ok((adjusted, data))
    } else {
        Err(4)
    }
}

/// The Kenward–Roger run.
pub fn kenward_roger_run(series: &Series) -> Result<Run, Refusal> {
    tests(series, adjust_finite(series)?)
}

/// The run that lme-rs makes where document 01 has its late refusal 4.
pub fn run_without_late_4(series: &Series) -> Result<Run, Refusal> {
    tests(series, adjust_whole(series)?)
}

/// The adjustment, each coefficient, the contrast, each once.
pub fn each_step_once(series: &Series) -> Result<Verdicts, Refusal> {
    let fit = fit(series, series.sigma2);
    let data = kr_vcov_adj::kenward_roger_modcomp_data(&fit, &frame(series)).map_err(number)?;
    verdicts(&data, &series.beta, series.contrast.as_ref(), series.beta_h.as_deref())
}

/// `kr_modcomp_test` and `kenward_roger_contrast_f_test` on an archive's
/// matrices, brought to response units by plain f64.
pub fn archive_tests(archive: &Archive, tests: &Tests) -> Result<Verdicts, Refusal> {
    let data = KenwardRogerModcompData {
        phi: array(&archive.response_phi()),
        phi_a: array(&archive.response_phi_a()),
        p_list: archive.response_p().iter().map(array).collect(),
        w: array(&archive.w),
    };
    verdicts(&data, &tests.beta, tests.contrast.as_ref(), tests.beta_h.as_deref())
}

/// Each coefficient alone, then the contrast.
fn tests(
    series: &Series,
    (adjusted, data): (Adjusted, KenwardRogerModcompData),
) -> Result<Run, Refusal> {
    // lme-rs's own loop over the coefficients keeps df alone; its F comes from
    // the same call made here.
    let own = kenward_roger::compute_kenward_roger(&fit(series, series.sigma2), &frame(series))
        .map_err(number)?;
    let (l, beta_h) = (series.contrast.as_ref(), series.beta_h.as_deref());
    let (coefficients, contrast) = verdicts(&data, &series.beta, l, beta_h)?;
    for (verdict, &df) in coefficients.iter().zip(own.dfs.iter()) {
        assert!(same(verdict.df, df), "lme-rs's loop and its test differ in df");
    }
    Ok(Run { adjusted, coefficients, contrast })
}

/// The tests from adjusted matrices in response units.
fn verdicts(
    data: &KenwardRogerModcompData,
    beta: &[f64],
    contrast: Option<&Matrix>,
    beta_h: Option<&[f64]>,
) -> Result<Verdicts, Refusal> {
    let beta: Array1<f64> = beta.to_vec().into();
    let beta_h: Option<Array1<f64>> = beta_h.map(|h| h.to_vec().into());
    let coefficients = (0..beta.len()).map(|i| coefficient_test(data, &beta, i));
    let coefficients = coefficients.collect::<Result<_, _>>()?;
    let contrast = contrast.map(|l| contrast_test(data, &beta, l, beta_h.as_ref())).transpose()?;
    Ok((coefficients, contrast))
}

fn coefficient_test(
    data: &KenwardRogerModcompData,
    beta: &Array1<f64>,
    i: usize,
) -> Result<Verdict, Refusal> {
    let mut unit = Array2::zeros((1, beta.len()));
    unit[[0, i]] = 1.0;
    let test = kr_modcomp::kr_modcomp_test(data, &unit, beta, None).map_err(number)?;
    Ok(Verdict { f: test.f_stat, df: test.den_df, rank: 1 })
}

fn contrast_test(
    data: &KenwardRogerModcompData,
    beta: &Array1<f64>,
    l: &Matrix,
    beta_h: Option<&Array1<f64>>,
) -> Result<Verdict, Refusal> {
    let (f, df, _, rank) =
        kr_modcomp::kenward_roger_contrast_f_test(data, beta, &array(l), beta_h).map_err(number)?;
    Ok(Verdict { f, df, rank: rank as u8 })
}

/// The Satterthwaite test.
pub fn satterthwaite_test(series: &SattSeries) -> Result<Verdict, Refusal> {
    let beta: Array1<f64> = series.beta.clone().into();
    let beta_h: Option<Array1<f64>> = series.beta_h.clone().map(Array1::from);
    let jacobians: Vec<Array2<f64>> = series.jacobians.iter().map(array).collect();
    let (f, df, _, rank) = ddf::satterthwaite_contrast_f_test(
        &beta,
        &array(&series.v),
        &array(&series.contrast),
        &jacobians,
        &array(&series.a),
        beta_h.as_ref(),
    )
    .map_err(number)?;
    Ok(Verdict { f, df, rank: rank as u8 })
}
