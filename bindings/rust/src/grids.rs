//! The calls on whole grids. Those that make several passes take a border for each axis, and are lent a second grid, in which an accepted
//! call leaves zeros.
use crate::ffi;
use crate::modes::{BorderMode, Borders};
use crate::refusal::{answer, Refusal};

/// The sums of each window times the weights of a grid kernel, whose sides are all equal.
///
/// Refuses: `Shape`, `Length`, `Level`, `Kernel`, `Weight`, `Origin`, `Constant`, `Reach`, `Sum`.
///
/// ```
/// let mut out = [0; 4];
/// suvvokal::correlate(&[1, 2, 3, 4], &[2, 2], &[1, 0, 0, 10], &[2, 2], suvvokal::BorderMode::Nearest, 0, &mut out)?;
/// assert_eq!(out, [11, 21, 31, 41]);
/// # Ok::<(), suvvokal::Refusal>(())
/// ```
pub fn correlate(
    data: &[i64],
    shape: &[usize],
    weights: &[i64],
    sides: &[usize],
    mode: BorderMode<i64>,
    origin: isize,
    out: &mut [i64],
) -> Result<(), Refusal> {
    let (code, constant) = mode.coded();
    // SAFETY: each pointer stands with the length of its own slice, and out overlaps nothing: it is borrowed alone.
    answer(unsafe {
        ffi::suvvokal_correlate(
            data.as_ptr(), data.len(), shape.as_ptr(), shape.len(), weights.as_ptr(), weights.len(), sides.as_ptr(), sides.len(), code, constant,
            origin, out.as_mut_ptr(), out.len(),
        )
    })
}

/// As [`correlate`] with the kernel reversed along every axis and the origin negated, and 1 less for even sides.
///
/// ```
/// let mut out = [0; 4];
/// suvvokal::convolve(&[1, 2, 3, 4], &[2, 2], &[1, 0, 0, 10], &[2, 2], suvvokal::BorderMode::Nearest, 0, &mut out)?;
/// assert_eq!(out, [14, 24, 34, 44]);
/// # Ok::<(), suvvokal::Refusal>(())
/// ```
pub fn convolve(
    data: &[i64],
    shape: &[usize],
    weights: &[i64],
    sides: &[usize],
    mode: BorderMode<i64>,
    origin: isize,
    out: &mut [i64],
) -> Result<(), Refusal> {
    let (code, constant) = mode.coded();
    // SAFETY: as in `correlate`.
    answer(unsafe {
        ffi::suvvokal_convolve(
            data.as_ptr(), data.len(), shape.as_ptr(), shape.len(), weights.as_ptr(), weights.len(), sides.as_ptr(), sides.len(), code, constant,
            origin, out.as_mut_ptr(), out.len(),
        )
    })
}

/// The differences of the neighbours along an axis, smoothed along every other axis by 1 1 1; each pass uses the border of its own axis.
///
/// Refuses: `Shape`, `Length`, `Level`, `Axis`, `Constant`, `Reach`, `Sum`.
///
/// ```
/// let (mut second, mut out) = ([5; 4], [0; 4]);
/// suvvokal::prewitt(&[1, 2, 3, 4], &[2, 2], 0, suvvokal::BorderMode::Constant(0), &mut second, &mut out)?;
/// assert_eq!((second, out), ([0; 4], [7, 7, -3, -3]));
/// # Ok::<(), suvvokal::Refusal>(())
/// ```
pub fn prewitt(
    data: &[i64],
    shape: &[usize],
    axis: usize,
    borders: impl Into<Borders>,
    second: &mut [i64],
    out: &mut [i64],
) -> Result<(), Refusal> {
    let (codes, constants) = borders.into().coded();
    // SAFETY: as in `correlate`; second is borrowed alone too, and the codes and constants live until the call is over.
    answer(unsafe {
        ffi::suvvokal_prewitt(
            data.as_ptr(), data.len(), shape.as_ptr(), shape.len(), axis, codes.as_ptr(), codes.len(), constants.as_ptr(), constants.len(),
            second.as_mut_ptr(), second.len(), out.as_mut_ptr(), out.len(),
        )
    })
}

/// As [`prewitt`], smoothed by 1 2 1.
///
/// ```
/// let (mut second, mut out) = ([5; 4], [0; 4]);
/// suvvokal::sobel(&[1, 2, 3, 4], &[2, 2], 0, suvvokal::BorderMode::Constant(0), &mut second, &mut out)?;
/// assert_eq!((second, out), ([0; 4], [10, 11, -4, -5]));
/// # Ok::<(), suvvokal::Refusal>(())
/// ```
pub fn sobel(
    data: &[i64],
    shape: &[usize],
    axis: usize,
    borders: impl Into<Borders>,
    second: &mut [i64],
    out: &mut [i64],
) -> Result<(), Refusal> {
    let (codes, constants) = borders.into().coded();
    // SAFETY: as in `prewitt`.
    answer(unsafe {
        ffi::suvvokal_sobel(
            data.as_ptr(), data.len(), shape.as_ptr(), shape.len(), axis, codes.as_ptr(), codes.len(), constants.as_ptr(), constants.len(),
            second.as_mut_ptr(), second.len(), out.as_mut_ptr(), out.len(),
        )
    })
}

/// The means along every axis in rising order, each pass cut toward zero.
///
/// Refuses: `Shape`, `Length`, `Level`, `Kernel`, `Constant`, `Reach`.
///
/// ```
/// let (mut second, mut out) = ([5; 4], [0; 4]);
/// suvvokal::uniform_filter(&[1, 2, 3, -6], &[2, 2], 2, suvvokal::BorderMode::Nearest, &mut second, &mut out)?;
/// assert_eq!((second, out), ([0; 4], [1, 1, 2, 0]));
/// # Ok::<(), suvvokal::Refusal>(())
/// ```
pub fn uniform_filter(
    data: &[i64],
    shape: &[usize],
    size: usize,
    borders: impl Into<Borders>,
    second: &mut [i64],
    out: &mut [i64],
) -> Result<(), Refusal> {
    let (codes, constants) = borders.into().coded();
    // SAFETY: as in `prewitt`.
    answer(unsafe {
        ffi::suvvokal_uniform_filter(
            data.as_ptr(), data.len(), shape.as_ptr(), shape.len(), size, codes.as_ptr(), codes.len(), constants.as_ptr(), constants.len(),
            second.as_mut_ptr(), second.len(), out.as_mut_ptr(), out.len(),
        )
    })
}

/// The least level of each cell's box. A positive `origin` moves the window to the left on every axis.
///
/// Refuses: `Shape`, `Length`, `Level`, `Kernel`, `Origin`, `Constant`, `Reach`.
///
/// ```
/// let (mut second, mut out) = ([5; 4], [0; 4]);
/// suvvokal::minimum_filter(&[5, 3, 4, 9], &[2, 2], 2, suvvokal::BorderMode::Constant(0), 0, &mut second, &mut out)?;
/// assert_eq!((second, out), ([0; 4], [0, 0, 0, 3]));
/// # Ok::<(), suvvokal::Refusal>(())
/// ```
pub fn minimum_filter(
    data: &[i64],
    shape: &[usize],
    size: usize,
    borders: impl Into<Borders>,
    origin: isize,
    second: &mut [i64],
    out: &mut [i64],
) -> Result<(), Refusal> {
    let (codes, constants) = borders.into().coded();
    // SAFETY: as in `prewitt`.
    answer(unsafe {
        ffi::suvvokal_minimum_filter(
            data.as_ptr(), data.len(), shape.as_ptr(), shape.len(), size, codes.as_ptr(), codes.len(), constants.as_ptr(), constants.len(),
            origin, second.as_mut_ptr(), second.len(), out.as_mut_ptr(), out.len(),
        )
    })
}

/// The greatest level of each cell's box. A positive `origin` moves the window to the left on every axis.
///
/// Refuses: `Shape`, `Length`, `Level`, `Kernel`, `Origin`, `Constant`, `Reach`.
///
/// ```
/// let (mut second, mut out) = ([5; 4], [0; 4]);
/// suvvokal::maximum_filter(&[5, 3, 4, 9], &[2, 2], 2, suvvokal::BorderMode::Constant(0), 0, &mut second, &mut out)?;
/// assert_eq!((second, out), ([0; 4], [5, 5, 5, 9]));
/// # Ok::<(), suvvokal::Refusal>(())
/// ```
pub fn maximum_filter(
    data: &[i64],
    shape: &[usize],
    size: usize,
    borders: impl Into<Borders>,
    origin: isize,
    second: &mut [i64],
    out: &mut [i64],
) -> Result<(), Refusal> {
    let (codes, constants) = borders.into().coded();
    // SAFETY: as in `prewitt`.
    answer(unsafe {
        ffi::suvvokal_maximum_filter(
            data.as_ptr(), data.len(), shape.as_ptr(), shape.len(), size, codes.as_ptr(), codes.len(), constants.as_ptr(), constants.len(),
            origin, second.as_mut_ptr(), second.len(), out.as_mut_ptr(), out.len(),
        )
    })
}

/// The median of each cell of a mask and its neighbours on three axes; at the border only the neighbours inside the grid count.
///
/// Refuses: `Shape` (the mask has three axes), `Length`, `SingleCell`.
///
/// ```
/// let mask = [true, false, true, false, false, true, false, true];
/// let mut out = [false; 8];
/// suvvokal::median_filter(&mask, &[2, 2, 2], &mut out)?;
/// assert_eq!(out, [true; 8]);
/// # Ok::<(), suvvokal::Refusal>(())
/// ```
pub fn median_filter(mask: &[bool], shape: &[usize], out: &mut [bool]) -> Result<(), Refusal> {
    // SAFETY: as in `correlate`; a bool of Rust is one byte, 0 or 1, and the call writes no other.
    answer(unsafe {
        ffi::suvvokal_median_filter(mask.as_ptr(), mask.len(), shape.as_ptr(), shape.len(), out.as_mut_ptr(), out.len())
    })
}
