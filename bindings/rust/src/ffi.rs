//! The entry points of the archive, as bindings/c/suvvokal.h declares them.

extern "C" {
    pub fn suvvokal_pad(
        data: *const i64, data_len: usize, shape: *const usize, axes: usize, lefts: *const usize, lefts_len: usize, rights: *const usize,
        rights_len: usize, count: usize, mode: u8, constant: i64, out: *mut i64, out_len: usize,
    ) -> u8;
    pub fn suvvokal_pad_to(
        data: *const i64, data_len: usize, shape: *const usize, axes: usize, lefts: *const usize, lefts_len: usize, rights: *const usize,
        rights_len: usize, count: usize, mode: u8, constant: i64, out: *mut i64, out_len: usize,
    ) -> u8;
    pub fn suvvokal_correlate1d(
        data: *const i64, data_len: usize, shape: *const usize, axes: usize, weights: *const i64, weights_len: usize, axis: usize, border: u8,
        constant: i64, origin: isize, out: *mut i64, out_len: usize,
    ) -> u8;
    pub fn suvvokal_convolve1d(
        data: *const i64, data_len: usize, shape: *const usize, axes: usize, weights: *const i64, weights_len: usize, axis: usize, border: u8,
        constant: i64, origin: isize, out: *mut i64, out_len: usize,
    ) -> u8;
    pub fn suvvokal_correlate1d_f64(
        data: *const f64, data_len: usize, shape: *const usize, axes: usize, weights: *const f64, weights_len: usize, axis: usize, border: u8,
        constant: f64, origin: isize, out: *mut f64, out_len: usize,
    ) -> u8;
    pub fn suvvokal_convolve1d_f64(
        data: *const f64, data_len: usize, shape: *const usize, axes: usize, weights: *const f64, weights_len: usize, axis: usize, border: u8,
        constant: f64, origin: isize, out: *mut f64, out_len: usize,
    ) -> u8;
    pub fn suvvokal_uniform_filter1d(
        data: *const i64, data_len: usize, shape: *const usize, axes: usize, size: usize, axis: usize, border: u8, constant: i64, out: *mut i64,
        out_len: usize,
    ) -> u8;
    pub fn suvvokal_minimum_filter1d(
        data: *const i64, data_len: usize, shape: *const usize, axes: usize, size: usize, axis: usize, border: u8, constant: i64, origin: isize,
        out: *mut i64, out_len: usize,
    ) -> u8;
    pub fn suvvokal_maximum_filter1d(
        data: *const i64, data_len: usize, shape: *const usize, axes: usize, size: usize, axis: usize, border: u8, constant: i64, origin: isize,
        out: *mut i64, out_len: usize,
    ) -> u8;
    pub fn suvvokal_correlate(
        data: *const i64, data_len: usize, shape: *const usize, axes: usize, weights: *const i64, weights_len: usize, sides: *const usize,
        sides_len: usize, border: u8, constant: i64, origin: isize, out: *mut i64, out_len: usize,
    ) -> u8;
    pub fn suvvokal_convolve(
        data: *const i64, data_len: usize, shape: *const usize, axes: usize, weights: *const i64, weights_len: usize, sides: *const usize,
        sides_len: usize, border: u8, constant: i64, origin: isize, out: *mut i64, out_len: usize,
    ) -> u8;
    pub fn suvvokal_prewitt(
        data: *const i64, data_len: usize, shape: *const usize, axes: usize, axis: usize, borders: *const u8, borders_len: usize,
        constants: *const i64, constants_len: usize, second: *mut i64, second_len: usize, out: *mut i64, out_len: usize,
    ) -> u8;
    pub fn suvvokal_sobel(
        data: *const i64, data_len: usize, shape: *const usize, axes: usize, axis: usize, borders: *const u8, borders_len: usize,
        constants: *const i64, constants_len: usize, second: *mut i64, second_len: usize, out: *mut i64, out_len: usize,
    ) -> u8;
    pub fn suvvokal_uniform_filter(
        data: *const i64, data_len: usize, shape: *const usize, axes: usize, size: usize, borders: *const u8, borders_len: usize,
        constants: *const i64, constants_len: usize, second: *mut i64, second_len: usize, out: *mut i64, out_len: usize,
    ) -> u8;
    pub fn suvvokal_minimum_filter(
        data: *const i64, data_len: usize, shape: *const usize, axes: usize, size: usize, borders: *const u8, borders_len: usize,
        constants: *const i64, constants_len: usize, origin: isize, second: *mut i64, second_len: usize, out: *mut i64, out_len: usize,
    ) -> u8;
    pub fn suvvokal_maximum_filter(
        data: *const i64, data_len: usize, shape: *const usize, axes: usize, size: usize, borders: *const u8, borders_len: usize,
        constants: *const i64, constants_len: usize, origin: isize, second: *mut i64, second_len: usize, out: *mut i64, out_len: usize,
    ) -> u8;
    pub fn suvvokal_median_filter(
        mask: *const bool, mask_len: usize, shape: *const usize, axes: usize, out: *mut bool, out_len: usize,
    ) -> u8;
    pub fn suvvokal_symmetry_state_i64(weights: *const i64, weights_len: usize) -> u8;
    pub fn suvvokal_symmetry_state_f64(weights: *const f64, weights_len: usize) -> u8;
    pub fn suvvokal_kernel3d(kernel: u8, out: *mut bool, out_len: usize) -> u8;
    pub fn suvvokal_read_recipe(file: *const u8, file_len: usize, fields: *mut i64, fields_len: usize) -> u8;
    pub fn suvvokal_write_recipe(count: u8, fields: *const i64, fields_len: usize, out: *mut u8, out_len: usize) -> u8;
    pub fn suvvokal_play(
        file: *const u8, file_len: usize, data: *const i64, data_len: usize, shape: *const usize, axes: usize, second: *mut i64,
        second_len: usize, out: *mut i64, out_len: usize,
    ) -> u8;
}
