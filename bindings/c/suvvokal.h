/* Suvvokal: filters and padding of grids of one to three axes, and recipes of them, from C.
 *
 * A slice is a pointer and a number of elements (NULL with 0 is fine). Lent outputs must not overlap each other or any input. A bool is one byte,
 * 0 or 1: any other byte behind a bool is undefined.
 *
 * A grid's cells stand in row-major order, the last axis fastest; `shape` has the length of each axis.
 *
 * Every call that returns an enum suvvokal_refusal number gives 0 where it filled its outputs, or the lowest number of a condition that holds (of a
 * recipe file 13 to 15 before any other), and then every lent output is as it was. No call keeps a pointer, allocates, or fails in another way.
 *
 * Floats: all NaNs count as one. Where an answer is a NaN the cell is a NaN and its bits are open; what is promised of a lent cell that held
 * a NaN and is left as it was is that it is a NaN.
 *
 * `tools/prove staticlib capi` makes the archive to link with, target/staticlib/libcapi.a.
 */
#ifndef SUVVOKAL_H
#define SUVVOKAL_H

#include <stdbool.h>
#include <stddef.h>
#include <stdint.h>

#ifdef __cplusplus
extern "C" {
#endif

/* How a grid is extended beyond its edges. The pictures show the cells a b c d between bars, and what stands beyond them. */
enum suvvokal_border {
    SUVVOKAL_CONSTANT = 0, /* k k k k | a b c d | k k k k   the constant k */
    SUVVOKAL_MIRROR = 1,   /*   d c b | a b c d | c b a     about the centre of the last cell */
    SUVVOKAL_NEAREST = 2,  /* a a a a | a b c d | d d d d   the last cell again */
    SUVVOKAL_REFLECT = 3,  /* d c b a | a b c d | d c b a   about the edge of the last cell */
    SUVVOKAL_WRAP = 4      /* a b c d | a b c d | a b c d   from the opposite edge */
};

/* What a grid is padded with; the pictures show the cells 1 2 3 with pads of 2. */
enum suvvokal_pad_mode {
    SUVVOKAL_PAD_CONSTANT = 0,  /* k k | 1 2 3 | k k   the constant k */
    SUVVOKAL_PAD_EDGE = 1,      /* 1 1 | 1 2 3 | 3 3   the level at the edge */
    SUVVOKAL_PAD_MAXIMUM = 2,   /* 3 3 | 1 2 3 | 3 3   the greatest level of the lane */
    SUVVOKAL_PAD_MEAN = 3,      /* 2 2 | 1 2 3 | 2 2   the mean of the lane, cut toward zero */
    SUVVOKAL_PAD_MEDIAN = 4,    /* 2 2 | 1 2 3 | 2 2   the median of the lane */
    SUVVOKAL_PAD_MINIMUM = 5,   /* 1 1 | 1 2 3 | 1 1   the least level of the lane */
    SUVVOKAL_PAD_REFLECT = 6,   /* 3 2 | 1 2 3 | 2 1   mirrored on the first and last levels */
    SUVVOKAL_PAD_SYMMETRIC = 7, /* 2 1 | 1 2 3 | 3 2   mirrored along the edges */
    SUVVOKAL_PAD_WRAP = 8       /* 2 3 | 1 2 3 | 1 2   from the opposite edge */
};

/* What a call returns. */
enum suvvokal_refusal {
    SUVVOKAL_ACCEPTED = 0,
    /* caused by whoever owns the grid */
    SUVVOKAL_SHAPE = 1,       /* not 1 to 3 axes (median: not 3), a length outside 1..1,024, or over 8,192 cells */
    SUVVOKAL_LENGTH = 2,      /* a lent grid whose length is not the cell count (of a kernel: not 27, of a recipe's numbers: not 97) */
    SUVVOKAL_LEVEL = 3,       /* an input level outside -(2^31 - 1)..2^31 - 1, or a float one that is not finite */
    SUVVOKAL_SINGLE_CELL = 4, /* median: an axis of one cell */
    /* caused by the kernel's author */
    SUVVOKAL_KERNEL = 5, /* weights or a window length outside 1..65; of a grid kernel its sides, axes or weight count */
    SUVVOKAL_WEIGHT = 6, /* a weight outside -65,535..65,535, or a float one that is not finite */
    SUVVOKAL_ORIGIN = 7, /* an origin that the window does not allow */
    /* caused by the operator */
    SUVVOKAL_AXIS = 8,     /* an axis number not below the axis count */
    SUVVOKAL_CONSTANT_LEVEL = 9, /* a constant that SUVVOKAL_LEVEL would refuse */
    SUVVOKAL_PADS = 10,    /* pads: their count, a pad over 64, over 32,768 padded cells, or an output of another length */
    SUVVOKAL_REACH = 11,   /* a pad that reaches past what the border can fill */
    /* caused by the arithmetic */
    SUVVOKAL_SUM = 12, /* a whole-number sum outside signed 64 bits */
    /* caused by the recipe's author */
    SUVVOKAL_MARK = 13,  /* under 6 bytes, or another mark or version */
    SUVVOKAL_COUNT = 14, /* a count outside 1..16, or bytes of another length than 6 + 7 * count */
    SUVVOKAL_STEP = 15,  /* a kind, border, constant or uniform origin that no step has */
    /* caused by the caller of this interface; judged last */
    SUVVOKAL_UNKNOWN_CODE = 100 /* a code that names no border, padding mode or kernel; a recipe's number that its field cannot hold */
};

/* What suvvokal_symmetry_state_i64 and suvvokal_symmetry_state_f64 return. */
enum suvvokal_symmetry {
    SUVVOKAL_NON_SYMMETRIC = 0,
    SUVVOKAL_SYMMETRIC = 1,
    SUVVOKAL_ANTI_SYMMETRIC = 2
};

/* The kernels of suvvokal_kernel3d. */
enum suvvokal_kernel {
    SUVVOKAL_STAR = 0, /* the centre and its 6 face neighbours */
    SUVVOKAL_BALL = 1, /* the star and the 12 edge neighbours */
    SUVVOKAL_FULL = 2  /* all 27 cells */
};

/* ---- Padding. The pads before and after each axis stand in two slices; `count` says how many pairs count: one for all axes, or one for each.
 * At most three of each are read, and a missing one is 0. */

/* Pads a grid into out, which has as many cells as the padded grid. 1 2 3 with pads of 2 under SUVVOKAL_PAD_REFLECT gives 3 2 1 2 3 2 1. */
uint8_t suvvokal_pad(const int64_t *data, size_t data_len, const size_t *shape, size_t axes, const size_t *lefts, size_t lefts_len,
                     const size_t *rights, size_t rights_len, size_t count, uint8_t mode, int64_t constant, int64_t *out, size_t out_len);

/* As suvvokal_pad, but under SUVVOKAL_PAD_CONSTANT the rim keeps what was lent. */
uint8_t suvvokal_pad_to(const int64_t *data, size_t data_len, const size_t *shape, size_t axes, const size_t *lefts, size_t lefts_len,
                        const size_t *rights, size_t rights_len, size_t count, uint8_t mode, int64_t constant, int64_t *out, size_t out_len);

/* ---- Along one axis. `border` and `constant` are the border; a positive `origin` moves the window to the left (convolve: to the right). */

/* The sums of each window times the weights. 1 2 3 with the weights 1 2 3 under SUVVOKAL_NEAREST gives 9 14 17. */
uint8_t suvvokal_correlate1d(const int64_t *data, size_t data_len, const size_t *shape, size_t axes, const int64_t *weights, size_t weights_len,
                             size_t axis, uint8_t border, int64_t constant, ptrdiff_t origin, int64_t *out, size_t out_len);

/* As suvvokal_correlate1d with the weights reversed and the origin negated, and 1 less for an even number of weights. */
uint8_t suvvokal_convolve1d(const int64_t *data, size_t data_len, const size_t *shape, size_t axes, const int64_t *weights, size_t weights_len,
                            size_t axis, uint8_t border, int64_t constant, ptrdiff_t origin, int64_t *out, size_t out_len);

/* As suvvokal_correlate1d, of floats, each operation rounded in the order that the symmetry class of the weights names. */
uint8_t suvvokal_correlate1d_f64(const double *data, size_t data_len, const size_t *shape, size_t axes, const double *weights, size_t weights_len,
                                 size_t axis, uint8_t border, double constant, ptrdiff_t origin, double *out, size_t out_len);

/* As suvvokal_convolve1d, of floats. */
uint8_t suvvokal_convolve1d_f64(const double *data, size_t data_len, const size_t *shape, size_t axes, const double *weights, size_t weights_len,
                                size_t axis, uint8_t border, double constant, ptrdiff_t origin, double *out, size_t out_len);

/* The mean of each window, cut toward zero. -1 -2 -4 with size 3 under SUVVOKAL_CONSTANT and 0 gives -1 -2 -2. */
uint8_t suvvokal_uniform_filter1d(const int64_t *data, size_t data_len, const size_t *shape, size_t axes, size_t size, size_t axis, uint8_t border,
                                  int64_t constant, int64_t *out, size_t out_len);

/* The least level of each window. 4 2 7 1 with size 3 under SUVVOKAL_REFLECT gives 2 2 1 1. */
uint8_t suvvokal_minimum_filter1d(const int64_t *data, size_t data_len, const size_t *shape, size_t axes, size_t size, size_t axis, uint8_t border,
                                  int64_t constant, ptrdiff_t origin, int64_t *out, size_t out_len);

/* The greatest level of each window. 4 2 7 1 with size 3 under SUVVOKAL_REFLECT gives 4 7 7 7. */
uint8_t suvvokal_maximum_filter1d(const int64_t *data, size_t data_len, const size_t *shape, size_t axes, size_t size, size_t axis, uint8_t border,
                                  int64_t constant, ptrdiff_t origin, int64_t *out, size_t out_len);

/* ---- On whole grids. Calls that make several passes take a border for each axis: `borders` has the codes and `constants` the constants, in the
 * order of the axes; those past the axis count are not read, a missing code is unknown and a missing constant 0. Such calls are lent a second grid
 * as long as data; an accepted call leaves zeros in it. */

/* The sums of each window times the weights of a grid kernel, whose sides are all equal. */
uint8_t suvvokal_correlate(const int64_t *data, size_t data_len, const size_t *shape, size_t axes, const int64_t *weights, size_t weights_len,
                           const size_t *sides, size_t sides_len, uint8_t border, int64_t constant, ptrdiff_t origin, int64_t *out,
                           size_t out_len);

/* As suvvokal_correlate with the kernel reversed along every axis and the origin negated, and 1 less for even sides. */
uint8_t suvvokal_convolve(const int64_t *data, size_t data_len, const size_t *shape, size_t axes, const int64_t *weights, size_t weights_len,
                          const size_t *sides, size_t sides_len, uint8_t border, int64_t constant, ptrdiff_t origin, int64_t *out,
                          size_t out_len);

/* The differences of the neighbours along an axis, smoothed along every other axis by 1 1 1; each pass uses the border of its own axis. */
uint8_t suvvokal_prewitt(const int64_t *data, size_t data_len, const size_t *shape, size_t axes, size_t axis, const uint8_t *borders,
                         size_t borders_len, const int64_t *constants, size_t constants_len, int64_t *second, size_t second_len, int64_t *out,
                         size_t out_len);

/* As suvvokal_prewitt, smoothed by 1 2 1. */
uint8_t suvvokal_sobel(const int64_t *data, size_t data_len, const size_t *shape, size_t axes, size_t axis, const uint8_t *borders,
                       size_t borders_len, const int64_t *constants, size_t constants_len, int64_t *second, size_t second_len, int64_t *out,
                       size_t out_len);

/* The means along every axis in rising order, each pass cut toward zero. */
uint8_t suvvokal_uniform_filter(const int64_t *data, size_t data_len, const size_t *shape, size_t axes, size_t size, const uint8_t *borders,
                                size_t borders_len, const int64_t *constants, size_t constants_len, int64_t *second, size_t second_len, int64_t *out,
                                size_t out_len);

/* The least level of each cell's box. */
uint8_t suvvokal_minimum_filter(const int64_t *data, size_t data_len, const size_t *shape, size_t axes, size_t size, const uint8_t *borders,
                                size_t borders_len, const int64_t *constants, size_t constants_len, ptrdiff_t origin, int64_t *second,
                                size_t second_len, int64_t *out, size_t out_len);

/* The greatest level of each cell's box. */
uint8_t suvvokal_maximum_filter(const int64_t *data, size_t data_len, const size_t *shape, size_t axes, size_t size, const uint8_t *borders,
                                size_t borders_len, const int64_t *constants, size_t constants_len, ptrdiff_t origin, int64_t *second,
                                size_t second_len, int64_t *out, size_t out_len);

/* The median of each cell of a mask and its neighbours on three axes; at the border only the neighbours inside the grid count. */
uint8_t suvvokal_median_filter(const bool *mask, size_t mask_len, const size_t *shape, size_t axes, bool *out, size_t out_len);

/* ---- Kernels. */

/* The symmetry class of whole weights, an enum suvvokal_symmetry. 1 2 5 -2 -1 is SUVVOKAL_ANTI_SYMMETRIC. */
uint8_t suvvokal_symmetry_state_i64(const int64_t *weights, size_t weights_len);

/* The symmetry class of float weights: a pair differs by more than 2^-52. */
uint8_t suvvokal_symmetry_state_f64(const double *weights, size_t weights_len);

/* Fills out, 27 cells, with a kernel of 3 by 3 by 3, an enum suvvokal_kernel, the last axis fastest. */
uint8_t suvvokal_kernel3d(uint8_t kernel, bool *out, size_t out_len);

/* ---- Recipes: files of 1 to 16 steps, and their player. */

/* Which call a step is. */
enum suvvokal_step_kind {
    SUVVOKAL_STEP_MINIMUM = 0, /* suvvokal_minimum_filter1d */
    SUVVOKAL_STEP_MAXIMUM = 1, /* suvvokal_maximum_filter1d */
    SUVVOKAL_STEP_UNIFORM = 2  /* suvvokal_uniform_filter1d */
};

/* One step of a recipe. */
struct suvvokal_step {
    uint8_t kind;     /* an enum suvvokal_step_kind */
    uint8_t axis;     /* the axis that is swept */
    uint8_t length;   /* the cells of a window */
    int8_t origin;    /* how far the window is moved; 0 of a uniform step */
    uint8_t border;   /* an enum suvvokal_border */
    int16_t constant; /* 0 under every border but SUVVOKAL_CONSTANT */
};

/* A recipe; steps past the count are read as 0 and are not written. */
struct suvvokal_recipe {
    uint8_t count;
    struct suvvokal_step steps[16];
};

/* Reads a recipe file into fields, 97 numbers: the count, then the six fields of each of 16 steps in the order of struct suvvokal_step. */
uint8_t suvvokal_read_recipe(const uint8_t *file, size_t file_len, int64_t *fields, size_t fields_len);

/* Writes the recipe file of count steps to out, 6 + 7 * count bytes. fields has the six numbers of each step; missing ones are 0. */
uint8_t suvvokal_write_recipe(uint8_t count, const int64_t *fields, size_t fields_len, uint8_t *out, size_t out_len);

/* Plays a recipe file over a grid: its steps one after the other, all judged before a cell changes. second is a second grid as long as data; an
 * accepted call leaves zeros in it. 4 2 7 under the one step 0 0 2 0 2 0 gives 4 2 2. */
uint8_t suvvokal_play(const uint8_t *file, size_t file_len, const int64_t *data, size_t data_len, const size_t *shape, size_t axes, int64_t *second,
                      size_t second_len, int64_t *out, size_t out_len);

/* Reads a recipe file; a refused one leaves the recipe as it was. */
static inline uint8_t suvvokal_recipe_read(const uint8_t *file, size_t file_len, struct suvvokal_recipe *recipe) {
    int64_t fields[97] = {0};
    const uint8_t refusal = suvvokal_read_recipe(file, file_len, fields, 97);
    if (refusal != SUVVOKAL_ACCEPTED) {
        return refusal;
    }
    recipe->count = (uint8_t)fields[0];
    for (size_t k = 0; k < 16; k++) {
        const int64_t *six = fields + 1 + 6 * k;
        struct suvvokal_step *step = &recipe->steps[k];
        step->kind = (uint8_t)six[0];
        step->axis = (uint8_t)six[1];
        step->length = (uint8_t)six[2];
        step->origin = (int8_t)six[3];
        step->border = (uint8_t)six[4];
        step->constant = (int16_t)six[5];
    }
    return SUVVOKAL_ACCEPTED;
}

/* Writes the file of a recipe to out, 6 + 7 * count bytes. */
static inline uint8_t suvvokal_recipe_write(const struct suvvokal_recipe *recipe, uint8_t *out, size_t out_len) {
    int64_t fields[96] = {0};
    for (size_t k = 0; k < 16; k++) {
        const struct suvvokal_step *step = &recipe->steps[k];
        int64_t *six = fields + 6 * k;
        six[0] = step->kind;
        six[1] = step->axis;
        six[2] = step->length;
        six[3] = step->origin;
        six[4] = step->border;
        six[5] = step->constant;
    }
    return suvvokal_write_recipe(recipe->count, fields, 96, out, out_len);
}

#ifdef __cplusplus
}
#endif

#endif
