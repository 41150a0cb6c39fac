//! A case put to the original Rust. Its calls allocate what they return.
use crate::cases::{Call, Case};
use crate::timing::Repeated;
use ndarray::{Array, Array1, Axis, Dimension, Ix1, Ix2, Ix3};
use ndarray_ndimage as nd;

fn border<T>(mode: suvvokal::BorderMode<T>) -> nd::BorderMode<T> {
    match mode {
        suvvokal::BorderMode::Constant(level) => nd::BorderMode::Constant(level),
        suvvokal::BorderMode::Mirror => nd::BorderMode::Mirror,
        suvvokal::BorderMode::Nearest => nd::BorderMode::Nearest,
        suvvokal::BorderMode::Reflect => nd::BorderMode::Reflect,
        suvvokal::BorderMode::Wrap => nd::BorderMode::Wrap,
    }
}

fn padding(mode: suvvokal::PadMode) -> nd::PadMode<i64> {
    match mode {
        suvvokal::PadMode::Constant(level) => nd::PadMode::Constant(level),
        suvvokal::PadMode::Edge => nd::PadMode::Edge,
        suvvokal::PadMode::Maximum => nd::PadMode::Maximum,
        suvvokal::PadMode::Mean => nd::PadMode::Mean,
        suvvokal::PadMode::Median => nd::PadMode::Median,
        suvvokal::PadMode::Minimum => nd::PadMode::Minimum,
        suvvokal::PadMode::Reflect => nd::PadMode::Reflect,
        suvvokal::PadMode::Symmetric => nd::PadMode::Symmetric,
        suvvokal::PadMode::Wrap => nd::PadMode::Wrap,
    }
}

fn grid<T: Clone, D: Dimension>(shape: &[usize], cells: Vec<T>) -> Array<T, D> {
    let mut sides = D::zeros(shape.len());
    sides.slice_mut().copy_from_slice(shape);
    Array::from_shape_vec(sides, cells).unwrap()
}

fn whole<D: Dimension>(cells: &Array<i64, D>) -> Vec<u64> {
    cells.iter().map(|&level| level as u64).collect()
}

macro_rules! repeated {
    ($times:ident, $call:expr, $bits:expr) => {
        Box::new(move |$times: usize| {
            let mut last = None;
            for _ in 0..$times {
                last = Some(std::hint::black_box($call));
            }
            ($bits)(&last.unwrap())
        })
    };
}

pub fn of(case: &Case) -> Repeated {
    match case.shape.len() {
        1 => on::<Ix1>(case),
        2 => on::<Ix2>(case),
        _ => on::<Ix3>(case),
    }
}

fn on<D: Dimension + 'static>(case: &Case) -> Repeated {
    let data: Array<i64, D> = grid(case.shape, case.levels());
    let axis = Axis(case.axis);
    let size = case.size;
    let mode = move |case: &Case| border::<i64>(case.border());
    let case = case.clone();
    match case.call {
        Call::Pad(_, pads, n) => repeated!(times, nd::pad(&data, &[[n, n]], padding(pads)), whole::<D>),
        Call::PadTo(_, pads, n) => {
            let sides: Vec<usize> = case.shape.iter().map(|length| length + 2 * n).collect();
            let mut out: Array<i64, D> = grid(&sides, vec![0; sides.iter().product()]);
            Box::new(move |times| {
                for _ in 0..times {
                    nd::pad_to(&data, &[[n, n]], padding(pads), &mut out);
                    std::hint::black_box(&mut out);
                }
                whole(&out)
            })
        }
        Call::Correlate1d(class) => {
            let weights = Array1::from(case.line(class));
            repeated!(times, nd::correlate1d(&data, &weights, axis, mode(&case), 0), whole::<D>)
        }
        Call::Convolve1d(class) => {
            let weights = Array1::from(case.line(class));
            repeated!(times, nd::convolve1d(&data, &weights, axis, mode(&case), 0), whole::<D>)
        }
        Call::Correlate1dF64(class) | Call::Convolve1dF64(class) => {
            let data: Array<f64, D> = grid(case.shape, case.floats());
            let weights = Array1::from(case.line_f64(class));
            let bits = |cells: &Array<f64, D>| cells.iter().map(|level| level.to_bits()).collect();
            if let Call::Correlate1dF64(_) = case.call {
                repeated!(times, nd::correlate1d(&data, &weights, axis, border(case.border()), 0), bits)
            } else {
                repeated!(times, nd::convolve1d(&data, &weights, axis, border(case.border()), 0), bits)
            }
        }
        Call::Correlate => {
            let weights: Array<i64, D> = grid(&vec![size; case.shape.len()], case.kernel());
            repeated!(times, nd::correlate(&data, &weights, mode(&case), 0), whole::<D>)
        }
        Call::Convolve => {
            let weights: Array<i64, D> = grid(&vec![size; case.shape.len()], case.kernel());
            repeated!(times, nd::convolve(&data, &weights, mode(&case), 0), whole::<D>)
        }
        Call::Prewitt => repeated!(times, nd::prewitt(&data, axis, mode(&case)), whole::<D>),
        Call::Sobel => repeated!(times, nd::sobel(&data, axis, mode(&case)), whole::<D>),
        Call::Uniform1d => repeated!(times, nd::uniform_filter1d(&data, size, axis, mode(&case)), whole::<D>),
        Call::Uniform => repeated!(times, nd::uniform_filter(&data, size, mode(&case)), whole::<D>),
        Call::Minimum1d(_) => repeated!(times, nd::minimum_filter1d(&data, size, axis, mode(&case), 0), whole::<D>),
        Call::Maximum1d(_) => repeated!(times, nd::maximum_filter1d(&data, size, axis, mode(&case), 0), whole::<D>),
        Call::Minimum(_) => repeated!(times, nd::minimum_filter(&data, size, mode(&case), 0), whole::<D>),
        Call::Maximum(_) => repeated!(times, nd::maximum_filter(&data, size, mode(&case), 0), whole::<D>),
        Call::Median => {
            let mask: Array<bool, Ix3> = grid(case.shape, case.mask());
            repeated!(times, nd::median_filter(&mask), |cells: &Array<bool, Ix3>| cells.iter().map(|&cell| cell as u64).collect())
        }
    }
}
