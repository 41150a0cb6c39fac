//! The calls along one axis.
use crate::ffi;
use crate::modes::BorderMode;
use crate::refusal::{answer, Refusal};

/// The sums of each window times the weights. A positive `origin` moves the window to the left.
///
/// Refuses: `Shape`, `Length`, `Level`, `Kernel`, `Weight`, `Origin`, `Axis`, `Constant`, `Reach`, `Sum`.
///
/// ```
/// let mut out = [0; 3];
/// suvvokal::correlate1d(&[1, 2, 3], &[3], &[1, 2, 3], 0, suvvokal::BorderMode::Nearest, 0, &mut out)?;
/// assert_eq!(out, [9, 14, 17]);
/// # Ok::<(), suvvokal::Refusal>(())
/// ```
pub fn correlate1d(
    data: &[i64],
    shape: &[usize],
    weights: &[i64],
    axis: usize,
    mode: BorderMode<i64>,
    origin: isize,
    out: &mut [i64],
) -> Result<(), Refusal> {
    let (code, constant) = mode.coded();
    // SAFETY: each pointer stands with the length of its own slice, and out overlaps nothing: it is borrowed alone.
    answer(unsafe {
        ffi::suvvokal_correlate1d(
            data.as_ptr(), data.len(), shape.as_ptr(), shape.len(), weights.as_ptr(), weights.len(), axis, code, constant, origin,
            out.as_mut_ptr(), out.len(),
        )
    })
}

/// As [`correlate1d`] with the weights reversed and the origin negated, and 1 less for an even number of weights.
///
/// ```
/// let mut out = [0; 3];
/// suvvokal::convolve1d(&[1, 2, 3], &[3], &[1, 2, 3], 0, suvvokal::BorderMode::Nearest, 0, &mut out)?;
/// assert_eq!(out, [7, 10, 15]);
/// # Ok::<(), suvvokal::Refusal>(())
/// ```
pub fn convolve1d(
    data: &[i64],
    shape: &[usize],
    weights: &[i64],
    axis: usize,
    mode: BorderMode<i64>,
    origin: isize,
    out: &mut [i64],
) -> Result<(), Refusal> {
    let (code, constant) = mode.coded();
    // SAFETY: as in `correlate1d`.
    answer(unsafe {
        ffi::suvvokal_convolve1d(
            data.as_ptr(), data.len(), shape.as_ptr(), shape.len(), weights.as_ptr(), weights.len(), axis, code, constant, origin,
            out.as_mut_ptr(), out.len(),
        )
    })
}

/// As [`correlate1d`], of floats: each operation rounded, in the order that the symmetry class of the weights names. Never `Sum`.
///
/// ```
/// let mut out = [0.0; 3];
/// let weights = [1.0, 2.0, 1.0 + f64::EPSILON];
/// suvvokal::correlate1d_f64(&[0.0, 0.0, 1.0], &[3], &weights, 0, suvvokal::BorderMode::Constant(0.0), 0, &mut out)?;
/// assert_eq!(out, [0.0, 1.0, 2.0]);
/// # Ok::<(), suvvokal::Refusal>(())
/// ```
pub fn correlate1d_f64(
    data: &[f64],
    shape: &[usize],
    weights: &[f64],
    axis: usize,
    mode: BorderMode<f64>,
    origin: isize,
    out: &mut [f64],
) -> Result<(), Refusal> {
    let (code, constant) = mode.coded();
    // SAFETY: as in `correlate1d`.
    answer(unsafe {
        ffi::suvvokal_correlate1d_f64(
            data.as_ptr(), data.len(), shape.as_ptr(), shape.len(), weights.as_ptr(), weights.len(), axis, code, constant, origin,
            out.as_mut_ptr(), out.len(),
        )
    })
}

/// As [`convolve1d`], of floats.
///
/// ```
/// let mut out = [0.0; 3];
/// let weights = [1.0, 2.0, 1.0 + f64::EPSILON];
/// suvvokal::convolve1d_f64(&[0.0, 0.0, 1.0], &[3], &weights, 0, suvvokal::BorderMode::Constant(0.0), 0, &mut out)?;
/// assert_eq!(out, [0.0, 1.0 + f64::EPSILON, 2.0]);
/// # Ok::<(), suvvokal::Refusal>(())
/// ```
pub fn convolve1d_f64(
    data: &[f64],
    shape: &[usize],
    weights: &[f64],
    axis: usize,
    mode: BorderMode<f64>,
    origin: isize,
    out: &mut [f64],
) -> Result<(), Refusal> {
    let (code, constant) = mode.coded();
    // SAFETY: as in `correlate1d`.
    answer(unsafe {
        ffi::suvvokal_convolve1d_f64(
            data.as_ptr(), data.len(), shape.as_ptr(), shape.len(), weights.as_ptr(), weights.len(), axis, code, constant, origin,
            out.as_mut_ptr(), out.len(),
        )
    })
}

/// The mean of each window, cut toward zero.
///
/// Refuses: `Shape`, `Length`, `Level`, `Kernel`, `Axis`, `Constant`, `Reach`.
///
/// ```
/// let mut out = [0; 3];
/// suvvokal::uniform_filter1d(&[-1, -2, -4], &[3], 3, 0, suvvokal::BorderMode::Constant(0), &mut out)?;
/// assert_eq!(out, [-1, -2, -2]);
/// # Ok::<(), suvvokal::Refusal>(())
/// ```
pub fn uniform_filter1d(
    data: &[i64],
    shape: &[usize],
    size: usize,
    axis: usize,
    mode: BorderMode<i64>,
    out: &mut [i64],
) -> Result<(), Refusal> {
    let (code, constant) = mode.coded();
    // SAFETY: as in `correlate1d`.
    answer(unsafe {
        ffi::suvvokal_uniform_filter1d(
            data.as_ptr(), data.len(), shape.as_ptr(), shape.len(), size, axis, code, constant, out.as_mut_ptr(), out.len(),
        )
    })
}

/// The least level of each window. A positive `origin` moves the window to the left.
///
/// Refuses: `Shape`, `Length`, `Level`, `Kernel`, `Origin`, `Axis`, `Constant`, `Reach`.
///
/// ```
/// let mut out = [0; 4];
/// suvvokal::minimum_filter1d(&[4, 2, 7, 1], &[4], 3, 0, suvvokal::BorderMode::Reflect, 0, &mut out)?;
/// assert_eq!(out, [2, 2, 1, 1]);
/// # Ok::<(), suvvokal::Refusal>(())
/// ```
pub fn minimum_filter1d(
    data: &[i64],
    shape: &[usize],
    size: usize,
    axis: usize,
    mode: BorderMode<i64>,
    origin: isize,
    out: &mut [i64],
) -> Result<(), Refusal> {
    let (code, constant) = mode.coded();
    // SAFETY: as in `correlate1d`.
    answer(unsafe {
        ffi::suvvokal_minimum_filter1d(
            data.as_ptr(), data.len(), shape.as_ptr(), shape.len(), size, axis, code, constant, origin, out.as_mut_ptr(), out.len(),
        )
    })
}

/// The greatest level of each window. A positive `origin` moves the window to the left.
///
/// Refuses: `Shape`, `Length`, `Level`, `Kernel`, `Origin`, `Axis`, `Constant`, `Reach`.
///
/// ```
/// let mut out = [0; 4];
/// suvvokal::maximum_filter1d(&[4, 2, 7, 1], &[4], 3, 0, suvvokal::BorderMode::Reflect, 0, &mut out)?;
/// assert_eq!(out, [4, 7, 7, 7]);
/// # Ok::<(), suvvokal::Refusal>(())
/// ```
pub fn maximum_filter1d(
    data: &[i64],
    shape: &[usize],
    size: usize,
    axis: usize,
    mode: BorderMode<i64>,
    origin: isize,
    out: &mut [i64],
) -> Result<(), Refusal> {
    let (code, constant) = mode.coded();
    // SAFETY: as in `correlate1d`.
    answer(unsafe {
        ffi::suvvokal_maximum_filter1d(
            data.as_ptr(), data.len(), shape.as_ptr(), shape.len(), size, axis, code, constant, origin, out.as_mut_ptr(), out.len(),
        )
    })
}
