//! The classes of weights, and the kernels.
use crate::ffi;
use crate::modes::{Kernel3d, SymmetryState};
use crate::refusal::{answer, Refusal};

/// The symmetry class of whole weights.
///
/// ```
/// use suvvokal::{symmetry_state_i64, SymmetryState};
/// assert_eq!(symmetry_state_i64(&[1, 2, 5, -2, -1]), SymmetryState::AntiSymmetric);
/// ```
pub fn symmetry_state_i64(weights: &[i64]) -> SymmetryState {
    // SAFETY: the pointer stands with the length of its slice.
    SymmetryState::of(unsafe { ffi::suvvokal_symmetry_state_i64(weights.as_ptr(), weights.len()) })
}

/// The symmetry class of float weights: a pair differs by more than 2^-52.
///
/// ```
/// use suvvokal::{symmetry_state_f64, SymmetryState};
/// assert_eq!(symmetry_state_f64(&[1.0, 2.0, 1.0 + f64::EPSILON]), SymmetryState::Symmetric);
/// ```
pub fn symmetry_state_f64(weights: &[f64]) -> SymmetryState {
    // SAFETY: the pointer stands with the length of its slice.
    SymmetryState::of(unsafe { ffi::suvvokal_symmetry_state_f64(weights.as_ptr(), weights.len()) })
}

/// Fills `out`, 27 cells, with a kernel of 3 by 3 by 3, the last axis fastest. Refuses: `Length`.
///
/// ```
/// let mut out = [false; 27];
/// suvvokal::kernel3d(suvvokal::Kernel3d::Star, &mut out)?;
/// assert_eq!(out.iter().filter(|&&cell| cell).count(), 7);
/// # Ok::<(), suvvokal::Refusal>(())
/// ```
pub fn kernel3d(kernel: Kernel3d, out: &mut [bool]) -> Result<(), Refusal> {
    // SAFETY: the pointer stands with the length of its slice, and the call writes only 0 and 1.
    answer(unsafe { ffi::suvvokal_kernel3d(kernel as u8, out.as_mut_ptr(), out.len()) })
}
