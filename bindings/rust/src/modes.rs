//! What stands beyond the edges of a grid, the classes of weights, and the kernels.

/// How a grid is extended beyond its edges. The pictures show the cells a b c d between bars.
#[derive(Clone, Copy, Debug, PartialEq)]
pub enum BorderMode<T> {
    /// `k k k k | a b c d | k k k k`: the constant k.
    Constant(T),
    /// `d c b | a b c d | c b a`: about the centre of the last cell.
    Mirror,
    /// `a a a a | a b c d | d d d d`: the last cell again.
    Nearest,
    /// `d c b a | a b c d | d c b a`: about the edge of the last cell.
    Reflect,
    /// `a b c d | a b c d | a b c d`: from the opposite edge.
    Wrap,
}

impl<T: Default> BorderMode<T> {
    pub(crate) fn coded(self) -> (u8, T) {
        match self {
            BorderMode::Constant(level) => (0, level),
            BorderMode::Mirror => (1, T::default()),
            BorderMode::Nearest => (2, T::default()),
            BorderMode::Reflect => (3, T::default()),
            BorderMode::Wrap => (4, T::default()),
        }
    }

    /// The border of a code that the archive has judged.
    pub(crate) fn of(code: u8, level: T) -> BorderMode<T> {
        match code {
            0 => BorderMode::Constant(level),
            1 => BorderMode::Mirror,
            2 => BorderMode::Nearest,
            3 => BorderMode::Reflect,
            _ => BorderMode::Wrap,
        }
    }
}

/// The border of each axis, which the calls that make several passes take: three, or one that stands for all. Those past the axis count are
/// neither read nor judged.
///
/// ```
/// use suvvokal::{minimum_filter, BorderMode};
/// let (data, mut second, mut out) = ([5, 3, 4, 9], [0; 4], [0; 4]);
/// minimum_filter(&data, &[2, 2], 2, BorderMode::Constant(0), 0, &mut second, &mut out)?;
/// assert_eq!(out, [0, 0, 0, 3]);
/// minimum_filter(&data, &[2, 2], 2, [BorderMode::Nearest, BorderMode::Constant(0), BorderMode::Nearest], 0, &mut second, &mut out)?;
/// assert_eq!(out, [0, 3, 0, 3]);
/// # Ok::<(), suvvokal::Refusal>(())
/// ```
#[derive(Clone, Copy, Debug, PartialEq)]
pub struct Borders(pub [BorderMode<i64>; 3]);

impl From<[BorderMode<i64>; 3]> for Borders {
    fn from(borders: [BorderMode<i64>; 3]) -> Borders {
        Borders(borders)
    }
}

impl From<BorderMode<i64>> for Borders {
    fn from(border: BorderMode<i64>) -> Borders {
        Borders([border; 3])
    }
}

impl Borders {
    pub(crate) fn coded(self) -> ([u8; 3], [i64; 3]) {
        let coded = self.0.map(BorderMode::coded);
        (coded.map(|(code, _)| code), coded.map(|(_, constant)| constant))
    }
}

/// What a grid is padded with. The pictures show the cells 1 2 3 with pads of 2.
#[derive(Clone, Copy, Debug, PartialEq, Eq)]
pub enum PadMode {
    /// `k k | 1 2 3 | k k`: the constant k.
    Constant(i64),
    /// `1 1 | 1 2 3 | 3 3`: the level at the edge.
    Edge,
    /// `3 3 | 1 2 3 | 3 3`: the greatest level of the lane.
    Maximum,
    /// `2 2 | 1 2 3 | 2 2`: the mean of the lane, cut toward zero.
    Mean,
    /// `2 2 | 1 2 3 | 2 2`: the median of the lane.
    Median,
    /// `1 1 | 1 2 3 | 1 1`: the least level of the lane.
    Minimum,
    /// `3 2 | 1 2 3 | 2 1`: mirrored on the first and last levels.
    Reflect,
    /// `2 1 | 1 2 3 | 3 2`: mirrored along the edges.
    Symmetric,
    /// `2 3 | 1 2 3 | 1 2`: from the opposite edge.
    Wrap,
}

impl PadMode {
    pub(crate) fn coded(self) -> (u8, i64) {
        match self {
            PadMode::Constant(level) => (0, level),
            PadMode::Edge => (1, 0),
            PadMode::Maximum => (2, 0),
            PadMode::Mean => (3, 0),
            PadMode::Median => (4, 0),
            PadMode::Minimum => (5, 0),
            PadMode::Reflect => (6, 0),
            PadMode::Symmetric => (7, 0),
            PadMode::Wrap => (8, 0),
        }
    }
}

/// The class of a line of weights.
#[derive(Clone, Copy, Debug, PartialEq, Eq)]
pub enum SymmetryState {
    NonSymmetric,
    Symmetric,
    AntiSymmetric,
}

impl SymmetryState {
    pub(crate) fn of(number: u8) -> SymmetryState {
        match number {
            1 => SymmetryState::Symmetric,
            2 => SymmetryState::AntiSymmetric,
            _ => SymmetryState::NonSymmetric,
        }
    }
}

/// The kernels of 3 by 3 by 3.
#[derive(Clone, Copy, Debug, PartialEq, Eq)]
pub enum Kernel3d {
    /// The centre and its 6 face neighbours.
    Star = 0,
    /// The star and the 12 edge neighbours.
    Ball = 1,
    /// All 27 cells.
    Full = 2,
}
