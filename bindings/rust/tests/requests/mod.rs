//! Requests as text (the protocol of the program `ndimage`) put to this crate. Before a call every lent cell holds a pattern; after it a refusal
//! must have left each cell as it was, and an accepted call zeros in the second grid. The text of a request is trusted.
use std::fmt::Write;
use suvvokal::{BorderMode, Kernel3d, PadMode, Refusal};

/// No call takes more lent cells than this; a longer grid has the refusal of one cell more.
const MOST_CELLS: usize = 32_768;

pub trait Level: Copy + Default {
    fn read(token: &str) -> Self;
    fn show(self, text: &mut String);
    fn bits(self) -> u64;
    /// What a lent cell holds before a call.
    fn pattern(place: usize) -> Self;
}

impl Level for i64 {
    fn read(token: &str) -> i64 {
        token.parse().unwrap()
    }
    fn show(self, text: &mut String) {
        write!(text, "{self}").unwrap()
    }
    fn bits(self) -> u64 {
        self as u64
    }
    fn pattern(place: usize) -> i64 {
        0x5a5a_0000_0000_0001 ^ (place as i64) << 7
    }
}

impl Level for f64 {
    fn read(token: &str) -> f64 {
        match token {
            "nan" => f64::NAN,
            _ => f64::from_bits(u64::from_str_radix(token, 16).unwrap()),
        }
    }
    fn show(self, text: &mut String) {
        match self.is_nan() {
            true => text.push_str("nan"),
            false => write!(text, "{:016x}", self.to_bits()).unwrap(),
        }
    }
    fn bits(self) -> u64 {
        self.to_bits()
    }
    /// Odd places hold a NaN with a payload of its own.
    fn pattern(place: usize) -> f64 {
        f64::from_bits(if place % 2 == 0 { 0x3ff0_0000_0000_0000 } else { 0x7ff8_0000_0000_0000 } + place as u64)
    }
}

impl Level for bool {
    fn read(token: &str) -> bool {
        token == "1"
    }
    fn show(self, text: &mut String) {
        text.push(if self { '1' } else { '0' })
    }
    fn bits(self) -> u64 {
        self as u64
    }
    fn pattern(place: usize) -> bool {
        place % 3 != 1
    }
}

/// A byte of a recipe file.
impl Level for u8 {
    fn read(token: &str) -> u8 {
        u8::from_str_radix(token, 16).unwrap()
    }
    fn show(self, text: &mut String) {
        write!(text, "{self:02x}").unwrap()
    }
    fn bits(self) -> u64 {
        self as u64
    }
    fn pattern(place: usize) -> u8 {
        0x5a ^ place as u8
    }
}

pub fn patterned<T: Level>(length: usize) -> Vec<T> {
    (0..length.min(MOST_CELLS + 1)).map(T::pattern).collect()
}

fn same<T: Level>(one: &[T], other: &[T]) -> bool {
    one.iter().map(|cell| cell.bits()).eq(other.iter().map(|cell| cell.bits()))
}

/// The answer as text, or what a call did to lent cells that it promised to leave.
fn told<T: Level>(result: Result<(), Refusal>, before: &[T], out: &[T]) -> String {
    match result {
        Err(refusal) if same(before, out) => format!("refused {}", refusal.number()),
        Err(refusal) => format!("refused {} and changed the output", refusal.number()),
        Ok(()) => {
            let mut text = String::new();
            for (place, cell) in out.iter().enumerate() {
                if place > 0 {
                    text.push(' ');
                }
                cell.show(&mut text);
            }
            text
        }
    }
}

struct Request<'a>(std::str::SplitAsciiWhitespace<'a>);

impl<'a> Request<'a> {
    fn word(&mut self) -> &'a str {
        self.0.next().unwrap()
    }
    fn number<N: std::str::FromStr>(&mut self) -> N {
        let token = self.word();
        token.parse().unwrap_or_else(|_| panic!("not a number here: {token}"))
    }
    fn list<T: Level>(&mut self) -> Vec<T> {
        let count: usize = self.number();
        (0..count).map(|_| T::read(self.word())).collect()
    }
    fn counts(&mut self) -> Vec<usize> {
        let count: usize = self.number();
        (0..count).map(|_| self.number()).collect()
    }
    fn border<T: Level>(&mut self) -> BorderMode<T> {
        match self.word() {
            "constant" => BorderMode::Constant(T::read(self.word())),
            "mirror" => BorderMode::Mirror,
            "nearest" => BorderMode::Nearest,
            "reflect" => BorderMode::Reflect,
            "wrap" => BorderMode::Wrap,
            other => panic!("no border: {other}"),
        }
    }
    fn borders(&mut self) -> [BorderMode<i64>; 3] {
        [self.border(), self.border(), self.border()]
    }
    fn pad_mode(&mut self) -> PadMode {
        match self.word() {
            "constant" => PadMode::Constant(self.number()),
            "edge" => PadMode::Edge,
            "maximum" => PadMode::Maximum,
            "mean" => PadMode::Mean,
            "median" => PadMode::Median,
            "minimum" => PadMode::Minimum,
            "reflect" => PadMode::Reflect,
            "symmetric" => PadMode::Symmetric,
            "wrap" => PadMode::Wrap,
            other => panic!("no padding mode: {other}"),
        }
    }
    fn pairs(&mut self) -> Vec<[usize; 2]> {
        let count: usize = self.number();
        (0..count).map(|_| [self.number(), self.number()]).collect()
    }
    fn bytes(&mut self) -> Vec<u8> {
        match self.word() {
            "-" => Vec::new(),
            digits => (0..digits.len()).step_by(2).map(|at| u8::read(&digits[at..at + 2])).collect(),
        }
    }
    fn lent<T: Level>(&mut self) -> Vec<T> {
        patterned(self.number())
    }
}

/// A call that fills an output.
pub fn filled<T: Level>(mut out: Vec<T>, call: impl FnOnce(&mut [T]) -> Result<(), Refusal>) -> String {
    let before = out.clone();
    let result = call(&mut out);
    told(result, &before, &out)
}

/// A call that fills an output over a second grid.
pub fn filled_over(mut out: Vec<i64>, mut second: Vec<i64>, call: impl FnOnce(&mut [i64], &mut [i64]) -> Result<(), Refusal>) -> String {
    let (before, before_second) = (out.clone(), second.clone());
    let result = call(&mut second, &mut out);
    let second_kept = match result {
        Ok(()) => second.iter().all(|&cell| cell == 0),
        Err(_) => same(&before_second, &second),
    };
    let text = told(result, &before, &out);
    if second_kept { text } else { text + " and the second grid is not as promised" }
}

/// What the library answers to a request.
pub fn answer(line: &str) -> String {
    let mut r = Request(line.split_ascii_whitespace());
    let name = r.word();
    match name {
        "correlate1d" | "convolve1d" => match r.word() {
            "i" => line_of(name, r, suvvokal::correlate1d, suvvokal::convolve1d),
            _ => line_of(name, r, suvvokal::correlate1d_f64, suvvokal::convolve1d_f64),
        },
        "symmetry" => match r.word() {
            "i" => format!("{:?}", suvvokal::symmetry_state_i64(&r.list::<i64>())),
            _ => format!("{:?}", suvvokal::symmetry_state_f64(&r.list::<f64>())),
        },
        "kernel3d" => {
            let kernel = match r.word() {
                "star" => Kernel3d::Star,
                "ball" => Kernel3d::Ball,
                _ => Kernel3d::Full,
            };
            filled(patterned(27), |out| suvvokal::kernel3d(kernel, out))
        }
        "median_filter" => {
            let (shape, mask) = (r.counts(), r.list::<bool>());
            filled(r.lent(), |out| suvvokal::median_filter(&mask, &shape, out))
        }
        "read_recipe" | "write_recipe" | "play" => recipe_of(name, r),
        _ => grid_of(name, r),
    }
}

fn recipe_of(name: &str, mut r: Request) -> String {
    match name {
        "read_recipe" => {
            let file = r.bytes();
            let text = filled(patterned(97), |out| suvvokal::read_recipe(&file, out));
            let Some(Ok(count)) = text.split(' ').next().map(str::parse::<usize>) else { return text };
            text.split(' ').take(1 + 6 * count).collect::<Vec<_>>().join(" ")
        }
        "write_recipe" => {
            let (count, steps): (u8, usize) = (r.number(), r.number());
            let fields: Vec<i64> = (0..6 * steps).map(|_| r.number()).collect();
            let text = filled(r.lent(), |out| suvvokal::write_recipe(count, &fields, out));
            if text.starts_with("refused") { text } else { text.replace(' ', "") }
        }
        _ => {
            let (file, shape, data) = (r.bytes(), r.counts(), r.list());
            filled_over(r.lent(), r.lent(), |second, out| suvvokal::play(&file, &data, &shape, second, out))
        }
    }
}

type LineCall<T> = fn(&[T], &[usize], &[T], usize, BorderMode<T>, isize, &mut [T]) -> Result<(), Refusal>;

fn line_of<T: Level>(name: &str, mut r: Request, correlate: LineCall<T>, convolve: LineCall<T>) -> String {
    let (shape, data, weights) = (r.counts(), r.list(), r.list());
    let (axis, mode, origin) = (r.number(), r.border(), r.number());
    let call = if name == "convolve1d" { convolve } else { correlate };
    filled(r.lent(), |out| call(&data, &shape, &weights, axis, mode, origin, out))
}

fn grid_of(name: &str, mut r: Request) -> String {
    let (shape, data) = (r.counts(), r.list::<i64>());
    match name {
        "pad" => {
            let (mode, pads) = (r.pad_mode(), r.pairs());
            filled(r.lent(), |out| suvvokal::pad(&data, &shape, &pads, mode, out))
        }
        "pad_to" => {
            let (mode, pads) = (r.pad_mode(), r.pairs());
            filled(r.list(), |out| suvvokal::pad_to(&data, &shape, &pads, mode, out))
        }
        "correlate" | "convolve" => {
            let (sides, weights) = (r.counts(), r.list());
            let (mode, origin) = (r.border(), r.number());
            let call = if name == "convolve" { suvvokal::convolve } else { suvvokal::correlate };
            filled(r.lent(), |out| call(&data, &shape, &weights, &sides, mode, origin, out))
        }
        "prewitt" | "sobel" => {
            let (axis, borders) = (r.number(), r.borders());
            let call = if name == "sobel" { suvvokal::sobel } else { suvvokal::prewitt };
            filled_over(r.lent(), r.lent(), |second, out| call(&data, &shape, axis, borders, second, out))
        }
        "uniform_filter" => {
            let (size, borders) = (r.number(), r.borders());
            filled_over(r.lent(), r.lent(), |second, out| suvvokal::uniform_filter(&data, &shape, size, borders, second, out))
        }
        "uniform_filter1d" => {
            let (size, axis, mode) = (r.number(), r.number(), r.border());
            filled(r.lent(), |out| suvvokal::uniform_filter1d(&data, &shape, size, axis, mode, out))
        }
        "minimum_filter1d" | "maximum_filter1d" => {
            let (size, axis, mode, origin) = (r.number(), r.number(), r.border(), r.number());
            let call = if name == "minimum_filter1d" { suvvokal::minimum_filter1d } else { suvvokal::maximum_filter1d };
            filled(r.lent(), |out| call(&data, &shape, size, axis, mode, origin, out))
        }
        "minimum_filter" | "maximum_filter" => {
            let (size, borders, origin) = (r.number(), r.borders(), r.number());
            let call = if name == "minimum_filter" { suvvokal::minimum_filter } else { suvvokal::maximum_filter };
            filled_over(r.lent(), r.lent(), |second, out| call(&data, &shape, size, borders, origin, second, out))
        }
        other => panic!("no call: {other}"),
    }
}
