//! Filters and padding of grids of one to three axes, and recipes of them: the proved library Suvvokal, from Rust.
//!
//! A grid is a slice of levels in row-major order, the last axis fastest, and the length of each axis. A call fills the lent output and
//! gives `Ok`, or gives the one [`Refusal`] and leaves every lent cell as it was; it never panics, and only [`Recipe`] allocates.
//!
//! ```
//! use suvvokal::{correlate1d, BorderMode};
//! let mut out = [0; 3];
//! correlate1d(&[1, 2, 3], &[3], &[1, 2, 3], 0, BorderMode::Nearest, 0, &mut out)?;
//! assert_eq!(out, [9, 14, 17]);
//! # Ok::<(), suvvokal::Refusal>(())
//! ```

mod ffi;
mod grids;
mod kernels;
mod lines;
mod modes;
mod pads;
mod recipes;
mod refusal;

pub use grids::{convolve, correlate, maximum_filter, median_filter, minimum_filter, prewitt, sobel, uniform_filter};
pub use kernels::{kernel3d, symmetry_state_f64, symmetry_state_i64};
pub use lines::{
    convolve1d, convolve1d_f64, correlate1d, correlate1d_f64, maximum_filter1d, minimum_filter1d, uniform_filter1d,
};
pub use modes::{BorderMode, Borders, Kernel3d, PadMode, SymmetryState};
pub use pads::{pad, pad_to};
pub use recipes::{play, read_recipe, write_recipe, Recipe, Step, StepKind};
pub use refusal::Refusal;
