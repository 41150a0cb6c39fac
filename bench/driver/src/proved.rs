//! A case put to the proved library, through the Rust bindings. Its calls fill what is lent; nothing is cleared between two calls.
use crate::cases::{Call, Case};
use crate::timing::Repeated;
use suvvokal as sv;
use suvvokal::Refusal;

/// A call over lent cells, repeated.
fn lent<T: Copy + 'static>(mut out: Vec<T>, bits: fn(T) -> u64, mut call: impl FnMut(&mut [T]) -> Result<(), Refusal> + 'static) -> Repeated {
    Box::new(move |times| {
        for _ in 0..times {
            call(&mut out).unwrap();
            std::hint::black_box(&mut out);
        }
        out.iter().map(|&cell| bits(cell)).collect()
    })
}

fn whole(out: usize, call: impl FnMut(&mut [i64]) -> Result<(), Refusal> + 'static) -> Repeated {
    lent(vec![0; out], |level| level as u64, call)
}

fn float(out: usize, call: impl FnMut(&mut [f64]) -> Result<(), Refusal> + 'static) -> Repeated {
    lent(vec![0.0; out], f64::to_bits, call)
}

pub fn of(case: &Case) -> Repeated {
    let (shape, axis, size, cells) = (case.shape, case.axis, case.size, case.cells());
    let data = case.levels();
    let mode = case.border::<i64>();
    let mut second = vec![0; cells];
    match case.call {
        Call::Pad(_, pads, n) => {
            let padded = shape.iter().map(|length| length + 2 * n).product();
            whole(padded, move |out| sv::pad(&data, shape, &[[n, n]], pads, out))
        }
        Call::PadTo(_, pads, n) => {
            let padded = shape.iter().map(|length| length + 2 * n).product();
            whole(padded, move |out| sv::pad_to(&data, shape, &[[n, n]], pads, out))
        }
        Call::Correlate1d(class) => {
            let weights = case.line(class);
            whole(cells, move |out| sv::correlate1d(&data, shape, &weights, axis, mode, 0, out))
        }
        Call::Convolve1d(class) => {
            let weights = case.line(class);
            whole(cells, move |out| sv::convolve1d(&data, shape, &weights, axis, mode, 0, out))
        }
        Call::Correlate1dF64(class) => {
            let (data, weights, mode) = (case.floats(), case.line_f64(class), case.border());
            float(cells, move |out| sv::correlate1d_f64(&data, shape, &weights, axis, mode, 0, out))
        }
        Call::Convolve1dF64(class) => {
            let (data, weights, mode) = (case.floats(), case.line_f64(class), case.border());
            float(cells, move |out| sv::convolve1d_f64(&data, shape, &weights, axis, mode, 0, out))
        }
        Call::Correlate => {
            let (weights, sides) = (case.kernel(), vec![size; shape.len()]);
            whole(cells, move |out| sv::correlate(&data, shape, &weights, &sides, mode, 0, out))
        }
        Call::Convolve => {
            let (weights, sides) = (case.kernel(), vec![size; shape.len()]);
            whole(cells, move |out| sv::convolve(&data, shape, &weights, &sides, mode, 0, out))
        }
        Call::Prewitt => whole(cells, move |out| sv::prewitt(&data, shape, axis, mode, &mut second, out)),
        Call::Sobel => whole(cells, move |out| sv::sobel(&data, shape, axis, mode, &mut second, out)),
        Call::Uniform1d => whole(cells, move |out| sv::uniform_filter1d(&data, shape, size, axis, mode, out)),
        Call::Uniform => whole(cells, move |out| sv::uniform_filter(&data, shape, size, mode, &mut second, out)),
        Call::Minimum1d(_) => whole(cells, move |out| sv::minimum_filter1d(&data, shape, size, axis, mode, 0, out)),
        Call::Maximum1d(_) => whole(cells, move |out| sv::maximum_filter1d(&data, shape, size, axis, mode, 0, out)),
        Call::Minimum(_) => whole(cells, move |out| sv::minimum_filter(&data, shape, size, mode, 0, &mut second, out)),
        Call::Maximum(_) => whole(cells, move |out| sv::maximum_filter(&data, shape, size, mode, 0, &mut second, out)),
        Call::Median => {
            let mask = case.mask();
            lent(vec![false; cells], |cell| cell as u64, move |out| sv::median_filter(&mask, shape, out))
        }
    }
}
