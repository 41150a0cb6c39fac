//! Why a call was refused.
use std::fmt;

/// The lowest number of a condition that holds (of a recipe file `Mark`, `Count` and `Step` first): a refused call has changed no lent cell.
///
/// ```
/// use suvvokal::{correlate1d, BorderMode, Refusal};
/// let mut out = [7; 3];
/// let answer = correlate1d(&[1, 2, 3], &[3], &[1, 2, 3], 1, BorderMode::Nearest, 0, &mut out);
/// assert_eq!(answer, Err(Refusal::Axis));
/// assert_eq!(Refusal::Axis.number(), 8);
/// assert_eq!(out, [7; 3]);
/// ```
#[derive(Clone, Copy, Debug, PartialEq, Eq, Hash, PartialOrd, Ord)]
#[repr(u8)]
pub enum Refusal {
    /// Not 1 to 3 axes (median: not 3), a length outside 1..1,024, or over 8,192 cells.
    Shape = 1,
    /// A lent grid whose length is not the cell count (of a kernel: not 27, of a recipe's numbers: not 97).
    Length = 2,
    /// An input level outside -(2^31 - 1)..2^31 - 1, or a float one that is not finite.
    Level = 3,
    /// Median: an axis of one cell.
    SingleCell = 4,
    /// Weights or a window length outside 1..65; of a grid kernel its sides, axes or weight count.
    Kernel = 5,
    /// A weight outside -65,535..65,535, or a float one that is not finite.
    Weight = 6,
    /// An origin that the window does not allow.
    Origin = 7,
    /// An axis number not below the axis count.
    Axis = 8,
    /// A constant that `Level` would refuse.
    Constant = 9,
    /// Pads: their count, a pad over 64, over 32,768 padded cells, or an output of another length.
    Pads = 10,
    /// A pad that reaches past what the border can fill.
    Reach = 11,
    /// A whole-number sum outside signed 64 bits.
    Sum = 12,
    /// A recipe file of under 6 bytes, or of another mark or version.
    Mark = 13,
    /// Not 1 to 16 steps of a recipe, or bytes of another length than 6 + 7 × count.
    Count = 14,
    /// A kind, border, constant or uniform origin that no step of a recipe has.
    Step = 15,
    /// A number that its field of a step cannot hold ([`write_recipe`](crate::write_recipe) alone sends one), or a code that names nothing.
    UnknownCode = 100,
}

impl Refusal {
    /// The number of documents 01 and 02, or 100.
    pub const fn number(self) -> u8 {
        self as u8
    }

    const fn cause(self) -> &'static str {
        match self {
            Refusal::Shape => "shape: not 1 to 3 axes of 1 to 1,024 cells, 8,192 cells in all",
            Refusal::Length => "length: a lent grid is not as long as the cell count",
            Refusal::Level => "level: an input level outside 32 bits, or not finite",
            Refusal::SingleCell => "single cell: the median needs two cells on every axis",
            Refusal::Kernel => "kernel: not 1 to 65 weights, or sides that do not fit",
            Refusal::Weight => "weight: outside -65,535..65,535, or not finite",
            Refusal::Origin => "origin: the window does not allow it",
            Refusal::Axis => "axis: not below the axis count",
            Refusal::Constant => "constant: outside 32 bits, or not finite",
            Refusal::Pads => "pads: their count or size, or an output of another length",
            Refusal::Reach => "reach: a pad reaches past what the border can fill",
            Refusal::Sum => "sum: outside signed 64 bits",
            Refusal::Mark => "mark: no recipe file of version 1",
            Refusal::Count => "count: not 1 to 16 steps, or bytes of another length",
            Refusal::Step => "step: a kind, border, constant or origin that no step has",
            Refusal::UnknownCode => "unknown code, or a number that its field cannot hold",
        }
    }
}

impl fmt::Display for Refusal {
    fn fmt(&self, f: &mut fmt::Formatter) -> fmt::Result {
        write!(f, "refused {}: {}", self.number(), self.cause())
    }
}

impl std::error::Error for Refusal {}

/// What the archive's number says.
pub(crate) fn answer(number: u8) -> Result<(), Refusal> {
    Err(match number {
        0 => return Ok(()),
        1 => Refusal::Shape,
        2 => Refusal::Length,
        3 => Refusal::Level,
        4 => Refusal::SingleCell,
        5 => Refusal::Kernel,
        6 => Refusal::Weight,
        7 => Refusal::Origin,
        8 => Refusal::Axis,
        9 => Refusal::Constant,
        10 => Refusal::Pads,
        11 => Refusal::Reach,
        12 => Refusal::Sum,
        13 => Refusal::Mark,
        14 => Refusal::Count,
        15 => Refusal::Step,
        _ => Refusal::UnknownCode,
    })
}
