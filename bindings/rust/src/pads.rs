//! Padding.
use crate::ffi;
use crate::modes::PadMode;
use crate::refusal::{answer, Refusal};

/// The pads of the first three axes, before and after: the archive takes them as two slices. More than three pairs are refused by their count.
fn sides(pads: &[[usize; 2]]) -> ([usize; 3], [usize; 3]) {
    let mut lefts = [0; 3];
    let mut rights = [0; 3];
    for (axis, pair) in pads.iter().take(3).enumerate() {
        lefts[axis] = pair[0];
        rights[axis] = pair[1];
    }
    (lefts, rights)
}

/// Pads a grid into `out`, which has as many cells as the padded grid.
///
/// `pads` has one pair, before and after, for all axes, or one for each. Refuses: `Shape`, `Length`, `Level`, `Constant`, `Pads`, `Reach`.
///
/// ```
/// let mut out = [0; 7];
/// suvvokal::pad(&[1, 2, 3], &[3], &[[2, 2]], suvvokal::PadMode::Reflect, &mut out)?;
/// assert_eq!(out, [3, 2, 1, 2, 3, 2, 1]);
/// # Ok::<(), suvvokal::Refusal>(())
/// ```
pub fn pad(data: &[i64], shape: &[usize], pads: &[[usize; 2]], mode: PadMode, out: &mut [i64]) -> Result<(), Refusal> {
    let (lefts, rights) = sides(pads);
    let (code, constant) = mode.coded();
    // SAFETY: each pointer stands with the length of its own slice, and out overlaps nothing: it is borrowed alone.
    answer(unsafe {
        ffi::suvvokal_pad(
            data.as_ptr(), data.len(), shape.as_ptr(), shape.len(), lefts.as_ptr(), 3, rights.as_ptr(), 3, pads.len(), code, constant,
            out.as_mut_ptr(), out.len(),
        )
    })
}

/// As [`pad`], but under `PadMode::Constant` the rim keeps what was lent.
///
/// ```
/// let mut out = [7; 5];
/// suvvokal::pad_to(&[1, 2, 3], &[3], &[[1, 1]], suvvokal::PadMode::Constant(9), &mut out)?;
/// assert_eq!(out, [7, 1, 2, 3, 7]);
/// # Ok::<(), suvvokal::Refusal>(())
/// ```
pub fn pad_to(data: &[i64], shape: &[usize], pads: &[[usize; 2]], mode: PadMode, out: &mut [i64]) -> Result<(), Refusal> {
    let (lefts, rights) = sides(pads);
    let (code, constant) = mode.coded();
    // SAFETY: as in `pad`.
    answer(unsafe {
        ffi::suvvokal_pad_to(
            data.as_ptr(), data.len(), shape.as_ptr(), shape.len(), lefts.as_ptr(), 3, rights.as_ptr(), 3, pads.len(), code, constant,
            out.as_mut_ptr(), out.len(),
        )
    })
}
