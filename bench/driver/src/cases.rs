//! What is measured: the inputs, and every call on them.
use crate::random::Random;
use suvvokal::{BorderMode, PadMode};

/// A line, a plane and a solid.
pub const SHAPES: [&[usize]; 3] = [&[1024], &[90, 90], &[20, 20, 20]];
/// Lengths of windows and numbers of weights.
pub const SIZES: [usize; 4] = [3, 9, 33, 65];
pub const PADS: [(&str, PadMode); 9] = [
    ("constant", PadMode::Constant(7)),
    ("edge", PadMode::Edge),
    ("maximum", PadMode::Maximum),
    ("mean", PadMode::Mean),
    ("median", PadMode::Median),
    ("minimum", PadMode::Minimum),
    ("reflect", PadMode::Reflect),
    ("symmetric", PadMode::Symmetric),
    ("wrap", PadMode::Wrap),
];

#[derive(Clone, Copy, PartialEq)]
pub enum Levels {
    Random,
    Rising,
    Falling,
    Constant,
}

#[derive(Clone, Copy, PartialEq)]
pub enum Class {
    Symmetric,
    AntiSymmetric,
    NonSymmetric,
}

#[derive(Clone, Copy)]
pub enum Call {
    Pad(&'static str, PadMode, usize),
    PadTo(&'static str, PadMode, usize),
    Correlate1d(Class),
    Convolve1d(Class),
    Correlate1dF64(Class),
    Convolve1dF64(Class),
    Correlate,
    Convolve,
    Prewitt,
    Sobel,
    Uniform1d,
    Uniform,
    Minimum1d(Levels),
    Maximum1d(Levels),
    Minimum(Levels),
    Maximum(Levels),
    Median,
}

/// A call on one input. `size` is the window, the number of weights or the side of the kernel; 0 where there is none.
#[derive(Clone)]
pub struct Case {
    pub call: Call,
    pub shape: &'static [usize],
    pub axis: usize,
    pub size: usize,
}

impl Case {
    pub fn cells(&self) -> usize {
        self.shape.iter().product()
    }
    pub fn levels(&self) -> Vec<i64> {
        let mut random = Random(1);
        let kind = match self.call {
            Call::Minimum1d(k) | Call::Maximum1d(k) | Call::Minimum(k) | Call::Maximum(k) => k,
            _ => Levels::Random,
        };
        (0..self.cells() as i64)
            .map(|k| match kind {
                Levels::Random => random.level(1_000_000),
                Levels::Rising => k,
                Levels::Falling => -k,
                Levels::Constant => 5,
            })
            .collect()
    }
    pub fn floats(&self) -> Vec<f64> {
        self.levels().iter().map(|&level| level as f64 / 1024.0).collect()
    }
    pub fn mask(&self) -> Vec<bool> {
        self.levels().iter().map(|&level| level % 2 == 0).collect()
    }
    /// The weights of a line, of its class.
    pub fn line(&self, class: Class) -> Vec<i64> {
        let mut random = Random(2);
        let mut weights: Vec<i64> = (0..self.size).map(|_| random.level(1000)).collect();
        let n = weights.len();
        for k in 0..n / 2 {
            match class {
                Class::Symmetric => weights[n - 1 - k] = weights[k],
                Class::AntiSymmetric => weights[n - 1 - k] = -weights[k],
                Class::NonSymmetric => weights[n - 1 - k] = weights[k] + 1,
            }
        }
        weights
    }
    pub fn line_f64(&self, class: Class) -> Vec<f64> {
        self.line(class).iter().map(|&weight| weight as f64 / 8.0).collect()
    }
    /// The weights of a grid kernel of `size` on every axis.
    pub fn kernel(&self) -> Vec<i64> {
        let mut random = Random(3);
        (0..self.size.pow(self.shape.len() as u32)).map(|_| random.level(1000)).collect()
    }
    /// Reflect, SciPy's own; nearest where an axis is shorter than the reach.
    pub fn border<T>(&self) -> BorderMode<T> {
        if self.shape.iter().all(|&n| self.size / 2 <= n) {
            BorderMode::Reflect
        } else {
            BorderMode::Nearest
        }
    }
    pub fn name(&self) -> String {
        let levels = |k| match k {
            Levels::Random => "random",
            Levels::Rising => "rising",
            Levels::Falling => "falling",
            Levels::Constant => "constant",
        };
        let class = |c| match c {
            Class::Symmetric => "symmetric",
            Class::AntiSymmetric => "antisymmetric",
            Class::NonSymmetric => "nonsymmetric",
        };
        let (call, more) = match self.call {
            Call::Pad(mode, _, n) => ("pad", format!("{mode}-{n}")),
            Call::PadTo(mode, _, n) => ("pad_to", format!("{mode}-{n}")),
            Call::Correlate1d(c) => ("correlate1d", class(c).to_string()),
            Call::Convolve1d(c) => ("convolve1d", class(c).to_string()),
            Call::Correlate1dF64(c) => ("correlate1d_f64", class(c).to_string()),
            Call::Convolve1dF64(c) => ("convolve1d_f64", class(c).to_string()),
            Call::Correlate => ("correlate", "any".into()),
            Call::Convolve => ("convolve", "any".into()),
            Call::Prewitt => ("prewitt", "random".into()),
            Call::Sobel => ("sobel", "random".into()),
            Call::Uniform1d => ("uniform_filter1d", "random".into()),
            Call::Uniform => ("uniform_filter", "random".into()),
            Call::Minimum1d(k) => ("minimum_filter1d", levels(k).to_string()),
            Call::Maximum1d(k) => ("maximum_filter1d", levels(k).to_string()),
            Call::Minimum(k) => ("minimum_filter", levels(k).to_string()),
            Call::Maximum(k) => ("maximum_filter", levels(k).to_string()),
            Call::Median => ("median_filter", "random".into()),
        };
        let shape: Vec<String> = self.shape.iter().map(|n| n.to_string()).collect();
        format!("{call} {} axis {} size {} {more}", shape.join("x"), self.axis, self.size)
    }
}

/// Every case, in the order of the calls.
pub fn all() -> Vec<Case> {
    let mut cases = Vec::new();
    for shape in SHAPES {
        for (name, mode) in PADS {
            // At most 32,768 padded cells.
            for n in [2, if shape.len() == 3 { 5 } else { 16 }] {
                cases.push(Case { call: Call::Pad(name, mode, n), shape, axis: 0, size: 0 });
                cases.push(Case { call: Call::PadTo(name, mode, n), shape, axis: 0, size: 0 });
            }
        }
        for axis in 0..shape.len() {
            for size in SIZES {
                for class in [Class::Symmetric, Class::AntiSymmetric, Class::NonSymmetric] {
                    cases.push(Case { call: Call::Correlate1d(class), shape, axis, size });
                    cases.push(Case { call: Call::Correlate1dF64(class), shape, axis, size });
                }
                cases.push(Case { call: Call::Convolve1d(Class::NonSymmetric), shape, axis, size });
                cases.push(Case { call: Call::Convolve1dF64(Class::NonSymmetric), shape, axis, size });
                cases.push(Case { call: Call::Uniform1d, shape, axis, size });
                for levels in [Levels::Random, Levels::Rising, Levels::Falling, Levels::Constant] {
                    cases.push(Case { call: Call::Minimum1d(levels), shape, axis, size });
                    cases.push(Case { call: Call::Maximum1d(levels), shape, axis, size });
                }
            }
            cases.push(Case { call: Call::Prewitt, shape, axis, size: 0 });
            cases.push(Case { call: Call::Sobel, shape, axis, size: 0 });
        }
        for size in SIZES {
            // The half size may not pass the axis.
            if size / 2 <= shape[0] {
                cases.push(Case { call: Call::Uniform, shape, axis: 0, size });
            }
            cases.push(Case { call: Call::Minimum(Levels::Random), shape, axis: 0, size });
            cases.push(Case { call: Call::Maximum(Levels::Random), shape, axis: 0, size });
        }
        for side in [3, 7] {
            if shape.len() > 1 && !(shape.len() == 3 && side == 7) {
                cases.push(Case { call: Call::Correlate, shape, axis: 0, size: side });
                cases.push(Case { call: Call::Convolve, shape, axis: 0, size: side });
            }
        }
        if shape.len() == 3 {
            cases.push(Case { call: Call::Median, shape, axis: 0, size: 3 });
        }
    }
    cases
}
