/* Worked examples from C: T2, T4, T7, T8 and T9 of the scope, document 02's recipe, and refused calls. bindings/c/run builds and runs it. */
#include "suvvokal.h"

#include <inttypes.h>
#include <stdio.h>

#define LEN(a) (sizeof(a) / sizeof((a)[0]))

static void show(const char *name, uint8_t refusal, const int64_t *cells, size_t len) {
    printf("%s: %u:", name, (unsigned)refusal);
    for (size_t i = 0; i < len; i++) {
        printf(" %" PRId64, cells[i]);
    }
    printf("\n");
}

static void show_mask(const char *name, uint8_t refusal, const bool *cells, size_t len) {
    printf("%s: %u:", name, (unsigned)refusal);
    for (size_t i = 0; i < len; i++) {
        printf(" %d", (int)cells[i]);
    }
    printf("\n");
}

static void show_bytes(const char *name, uint8_t refusal, const uint8_t *bytes, size_t len) {
    printf("%s: %u:", name, (unsigned)refusal);
    for (size_t i = 0; i < len; i++) {
        printf(" %u", (unsigned)bytes[i]);
    }
    printf("\n");
}

static void show_recipe(const char *name, uint8_t refusal, const struct suvvokal_recipe *recipe) {
    printf("%s: %u: %u", name, (unsigned)refusal, (unsigned)recipe->count);
    for (size_t k = 0; k < recipe->count; k++) {
        const struct suvvokal_step *step = &recipe->steps[k];
        printf(", %u %u %u %d %u %d", (unsigned)step->kind, (unsigned)step->axis, (unsigned)step->length, (int)step->origin, (unsigned)step->border,
               (int)step->constant);
    }
    printf("\n");
}

/* T2: 1 2 3 with the weights 1 2 3 */
static void t2(void) {
    const int64_t data[] = {1, 2, 3};
    const size_t shape[] = {3};
    const int64_t weights[] = {1, 2, 3};
    int64_t out[3] = {0};
    uint8_t r = suvvokal_correlate1d(data, LEN(data), shape, LEN(shape), weights, LEN(weights), 0, SUVVOKAL_NEAREST, 0, 0, out, LEN(out));
    show("T2 correlate1d", r, out, LEN(out));
    r = suvvokal_convolve1d(data, LEN(data), shape, LEN(shape), weights, LEN(weights), 0, SUVVOKAL_NEAREST, 0, 0, out, LEN(out));
    show("T2 convolve1d", r, out, LEN(out));
}

/* T4: 4 2 7 1 with size 3 */
static void t4(void) {
    const int64_t data[] = {4, 2, 7, 1};
    const size_t shape[] = {4};
    int64_t out[4] = {0};
    uint8_t r = suvvokal_minimum_filter1d(data, LEN(data), shape, LEN(shape), 3, 0, SUVVOKAL_REFLECT, 0, 0, out, LEN(out));
    show("T4 minimum_filter1d", r, out, LEN(out));
    r = suvvokal_maximum_filter1d(data, LEN(data), shape, LEN(shape), 3, 0, SUVVOKAL_REFLECT, 0, 0, out, LEN(out));
    show("T4 maximum_filter1d", r, out, LEN(out));
}

/* T7 and T8: the rows 1 2 / 3 4, by Sobel along axis 0 and with the kernel 1 0 / 0 10 */
static void t7_t8(void) {
    const int64_t data[] = {1, 2, 3, 4};
    const size_t shape[] = {2, 2};
    const int64_t weights[] = {1, 0, 0, 10};
    const size_t sides[] = {2, 2};
    const uint8_t nearest[] = {SUVVOKAL_NEAREST, SUVVOKAL_NEAREST};
    const uint8_t constant[] = {SUVVOKAL_CONSTANT, SUVVOKAL_CONSTANT};
    const uint8_t both[] = {SUVVOKAL_CONSTANT, SUVVOKAL_NEAREST};
    int64_t second[4] = {0}, out[4] = {0};
    uint8_t r = suvvokal_sobel(data, LEN(data), shape, LEN(shape), 0, nearest, LEN(nearest), NULL, 0, second, LEN(second), out, LEN(out));
    show("T7 sobel, nearest", r, out, LEN(out));
    r = suvvokal_sobel(data, LEN(data), shape, LEN(shape), 0, constant, LEN(constant), NULL, 0, second, LEN(second), out, LEN(out));
    show("T7 sobel, constant 0", r, out, LEN(out));
    r = suvvokal_sobel(data, LEN(data), shape, LEN(shape), 0, both, LEN(both), NULL, 0, second, LEN(second), out, LEN(out));
    show("sobel, constant 0 on axis 0 and nearest on axis 1", r, out, LEN(out));
    r = suvvokal_correlate(data, LEN(data), shape, LEN(shape), weights, LEN(weights), sides, LEN(sides), SUVVOKAL_NEAREST, 0, 0, out, LEN(out));
    show("T8 correlate", r, out, LEN(out));
}

/* T9: masks of 2 by 2 by 2 cells */
static void t9(void) {
    const bool four[] = {true, false, false, true, false, true, true, false};
    const bool three[] = {true, false, false, true, false, true, false, false};
    const size_t shape[] = {2, 2, 2};
    bool out[8] = {false};
    uint8_t r = suvvokal_median_filter(four, LEN(four), shape, LEN(shape), out, LEN(out));
    show_mask("T9 median_filter, four true", r, out, LEN(out));
    r = suvvokal_median_filter(three, LEN(three), shape, LEN(shape), out, LEN(out));
    show_mask("T9 median_filter, three true", r, out, LEN(out));
}

/* the other families: floats, padding, kernels, classes */
static void others(void) {
    const double data[] = {0.0, 0.0, 1.0};
    const double weights[] = {1.0, 2.0, 1.0 + 0x1p-52};
    const size_t shape[] = {3};
    double out[3] = {0.0};
    uint8_t r = suvvokal_correlate1d_f64(data, LEN(data), shape, LEN(shape), weights, LEN(weights), 0, SUVVOKAL_CONSTANT, 0.0, 0, out, LEN(out));
    printf("correlate1d_f64: %u: %a %a %a\n", (unsigned)r, out[0], out[1], out[2]);
    printf("symmetry_state_f64: %u\n", (unsigned)suvvokal_symmetry_state_f64(weights, LEN(weights)));
    printf("symmetry_state_i64 of no weights: %u\n", (unsigned)suvvokal_symmetry_state_i64(NULL, 0));

    const int64_t line[] = {1, 2, 3};
    const size_t pads[] = {2};
    int64_t padded[7] = {0};
    r = suvvokal_pad(line, LEN(line), shape, LEN(shape), pads, LEN(pads), pads, LEN(pads), 1, SUVVOKAL_PAD_REFLECT, 0, padded, LEN(padded));
    show("pad, reflect", r, padded, LEN(padded));

    bool star[27] = {false};
    r = suvvokal_kernel3d(SUVVOKAL_STAR, star, LEN(star));
    show_mask("kernel3d, star", r, star, LEN(star));
}

/* refused calls leave what was lent */
static void refused(void) {
    const int64_t data[] = {1, 2, 3};
    const size_t shape[] = {3};
    int64_t second[3] = {7, 7, 7}, out[3] = {7, 7, 7};
    uint8_t r = suvvokal_minimum_filter1d(data, LEN(data), shape, LEN(shape), 7, 0, SUVVOKAL_MIRROR, 0, 0, out, LEN(out));
    show("refused, a pad that mirror cannot fill", r, out, LEN(out));
    r = suvvokal_minimum_filter1d(data, LEN(data), shape, LEN(shape), 3, 0, 5, 0, 0, out, LEN(out));
    show("refused, an unknown border", r, out, LEN(out));
    r = suvvokal_minimum_filter1d(data, LEN(data), shape, LEN(shape), 66, 0, 5, 0, 0, out, LEN(out));
    show("refused, an unknown border and a size of 66", r, out, LEN(out));
    r = suvvokal_uniform_filter(data, LEN(data), shape, LEN(shape), 3, NULL, 0, NULL, 0, second, LEN(second), out, LEN(out));
    show("refused, a missing border", r, out, LEN(out));
    r = suvvokal_minimum_filter1d(NULL, 0, NULL, 0, 3, 0, SUVVOKAL_NEAREST, 0, 0, NULL, 0);
    show("refused, no axes", r, NULL, 0);
}

/* document 02's recipe, the minimum of 2 cells under nearest: read, written with a step more, played; and refused ones */
static void recipes(void) {
    const uint8_t file[] = {'L', 'K', 'S', 0, 1, 1, 0, 0, 2, 0, 2, 0, 0};
    struct suvvokal_recipe recipe = {0};
    uint8_t r = suvvokal_recipe_read(file, LEN(file), &recipe);
    show_recipe("recipe_read", r, &recipe);

    const struct suvvokal_step widest = {SUVVOKAL_STEP_MAXIMUM, 2, 255, -128, SUVVOKAL_CONSTANT, -2};
    uint8_t written[20] = {0};
    recipe.count = 2;
    recipe.steps[1] = widest;
    r = suvvokal_recipe_write(&recipe, written, LEN(written));
    show_bytes("recipe_write, two steps", r, written, LEN(written));
    struct suvvokal_recipe again = {0};
    r = suvvokal_recipe_read(written, LEN(written), &again);
    show_recipe("recipe_read of them", r, &again);

    const int64_t data[] = {4, 2, 7};
    const size_t shape[] = {3};
    int64_t second[3] = {5, 5, 5}, out[3] = {7, 7, 7};
    r = suvvokal_play(file, LEN(file), data, LEN(data), shape, LEN(shape), second, LEN(second), out, LEN(out));
    show("play", r, out, LEN(out));
    show("play, the second grid", r, second, LEN(second));

    r = suvvokal_recipe_read(file, LEN(file) - 1, &again);
    show_recipe("refused, a byte too few", r, &again);
    r = suvvokal_recipe_write(&recipe, written, LEN(written) - 1);
    show_bytes("refused, a byte too few lent", r, written, LEN(written));
    const int64_t fields[] = {0, 0, 256, 0, 2, 0};
    r = suvvokal_write_recipe(1, fields, LEN(fields), written, 13);
    show_bytes("refused, a length of 256", r, written, LEN(written));
    r = suvvokal_play(written, LEN(written), data, LEN(data), shape, LEN(shape), second, LEN(second), out, LEN(out));
    show("refused, a step of 255 cells", r, out, LEN(out));
}

int main(void) {
    t2();
    t4();
    t7_t8();
    t9();
    others();
    recipes();
    refused();
    return 0;
}
