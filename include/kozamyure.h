/* Kozamyure: convolution, transposed convolution and max pooling with indices over lent f32 tensors.
 *
 * Every call takes the text of a layer sheet and lent memory. A sheet has twelve key=value lines, and for MaxPool-14 a line version=14 in front of them; see
 * README.md. No caller need check sheet, sizes, lengths or elements first: every call is answered, and a call whose number is not 0 leaves every lent buffer as
 * it was.
 *
 * What is proved holds under these assumptions, which no call can check:
 *  - A pointer is good for its length, and aligned for its element (4 bytes for float, 8 for int64_t). Lengths count elements, not bytes. A pointer may be
 *    null only where its length is 0.
 *  - A buffer that is written overlaps no other buffer of the call (koza_overlap tells), and no other thread uses it meanwhile. Buffers that are only read may
 *    overlap each other. A convolution in place answers 0 and leaves wrong sums: nothing is promised of it.
 *  - The floating-point environment is the default one: rounding to nearest, no flush to zero, exceptions masked (koza_float_mode_ok tells of the first two).
 *    A program linked with -ffast-math has another.
 *  - x86-64 Linux.
 * The contracts do not tell one NaN from another. A call leaves none in an output that it writes; one that stood there before a refused call stays.
 *
 * The library has no state and calls nothing, neither libc nor a heap: every function may be called from several threads and from a signal handler. It takes
 * less than 3,072 bytes of stack, koza_convolution_halved less than 4,608.
 */
#ifndef KOZAMYURE_H
#define KOZAMYURE_H

#include <stddef.h>
#include <stdint.h>

#ifdef __cplusplus
extern "C" {
#endif

/* ---- versions */

/* The version of this header. koza_version() tells that of the archive: a program that was compiled with another header finds out. */
#define KOZA_VERSION_MAJOR 2
#define KOZA_VERSION_MINOR 2
#define KOZA_VERSION_PATCH 0
#define KOZA_VERSION (KOZA_VERSION_MAJOR * 10000 + KOZA_VERSION_MINOR * 100 + KOZA_VERSION_PATCH)

uint32_t koza_version(void);

/* ---- the numbers that a call comes back with */

/* Checks go by number, lowest first, the sheet's own numbers (20 to 23) before all others. README.md says which line of the sheet to look at. */
enum koza_number {
    KOZA_DONE = 0,
    KOZA_DIMENSION = 1,
    KOZA_ATTRIBUTE = 2,
    KOZA_CHANNELS = 3,
    KOZA_ELEMENTS = 4,
    KOZA_KERNEL_FIT = 5,
    KOZA_OUTPUT_ELEMENTS = 6,
    KOZA_EMPTY_WINDOW = 7,
    KOZA_LENGTH = 8,
    KOZA_BAD_ELEMENT = 9,
    KOZA_SHEET_KEY = 20,
    KOZA_SHEET_NUMBER = 21,
    KOZA_SHEET_WORD = 22,
    KOZA_SHEET_UNUSED = 23,
    KOZA_SHEET_ROOM = 24
};

/* What a number means. */
static inline const char *koza_text(uint32_t number) {
    switch (number) {
    case KOZA_DONE: return "done: every output element is written";
    case KOZA_DIMENSION: return "axes is not 1, 2 or 3, or a dimension that the operator uses is outside its limit";
    case KOZA_ATTRIBUTE:
        return "an attribute outside its limit, a sheet of another operator, a same mode with transposed, axis outside its range, or an unused field not at its "
               "default";
    case KOZA_CHANNELS: return "C is not G*I";
    case KOZA_ELEMENTS: return "more than 4,096 taps, or more than 16,777,216 elements in input or kernel";
    case KOZA_KERNEL_FIT: return "the kernel does not fit on some axis, or a transposed output size is below 1";
    case KOZA_OUTPUT_ELEMENTS: return "more than 16,777,216 output elements";
    case KOZA_EMPTY_WINDOW: return "pooling: some window holds no element";
    case KOZA_LENGTH: return "a buffer's length is not exactly its element count (elements, not bytes: koza_lengths tells them)";
    case KOZA_BAD_ELEMENT: return "an element above 2^40 in magnitude or NaN";
    case KOZA_SHEET_KEY: return "the sheet: a wrong key or no line end, or bytes left over (line 13, or 14 with a version line)";
    case KOZA_SHEET_NUMBER: return "the sheet: a number, or a count of numbers, that breaks the rules, or a version line other than version=14";
    case KOZA_SHEET_WORD: return "the sheet: an unknown word, as is ceil_torch without a version line";
    case KOZA_SHEET_UNUSED:
        return "the sheet: a line that its operator does not use is not at its default, or a version line before another operator than maxpool";
    case KOZA_SHEET_ROOM: return "the buffer is shorter than the sheet";
    default: return "no number of this library";
    }
}

/* ---- answers: what a number does not use is 0 */

/* `line` for 20 to 23, counted from the sheet's first line, which may be a version line; for 9 `tensor` (0 input, looked at first; 1 kernel), the first bad
 * `place` in it and how many of its elements are `bad`. The kernel is not looked at when the input is bad. */
typedef struct {
    uint32_t number, line, tensor;
    size_t place, bad;
} koza_answer;

/* The output's sizes; zeros but for `number` and `line` where the call is refused. `z` is 1 where the sheet has fewer than three axes, and `y` where it has
 * one. */
typedef struct {
    uint32_t number, line, axes, n, c, z, y, x;
} koza_shape_answer;

/* The element counts of the buffers that a call takes; zeros but for `number` and `line` where it is refused. `kernel` is 0 for maxpool, whose values and
 * indices have `output` elements each. */
typedef struct {
    uint32_t number, line;
    size_t input, kernel, output;
} koza_lengths_answer;

/* The first largest element of a plane; zeros but for `number` and, for 9, the first bad `place` and how many elements are `bad` where the call is refused. */
typedef struct {
    uint32_t number;
    size_t place, bad;
    float value;
    size_t row, column;
} koza_peak_answer;

/* The length of the sheet that was written; 0 where the call is refused. `line` for 20 to 23. */
typedef struct {
    uint32_t number, line;
    size_t length;
} koza_written;

/* A part of a tensor, in elements; `length` 0 and `start` 0 where it is refused. */
typedef struct {
    size_t start, length;
} koza_part;

/* ---- the operators */

/* Tensors are row-major, as written here for three axes; with two axes every Z is left out, with one every Z and Y. What a call with number 0 leaves for image
 * n of the N depends on the function, the sheet, that image and the kernel alone, and is what the call on it alone leaves, with N 1; but an index with axis 0
 * or -R, R being the number of axes plus 2, is n*C*Z*Y*X more. A bad element in any image refuses the whole call, number 9. */

/* Input [N, C, Z, Y, X], kernel [G, O, I, KZ, KY, KX], output [N, G*O, OZ, OY, OX]. Numbers 0 to 9 and 20 to 23. */
koza_answer koza_convolution(const uint8_t *sheet, size_t sheet_len, const float *input, size_t input_len, const float *kernel, size_t kernel_len,
                             float *output, size_t output_len);

/* As koza_convolution, in answers, lengths and refusals too, but with another summing profile, so that bits may differ. The K = I*KZ*KY*KX taps of an output,
 * by i, kz, ky, kx rising, those outside the input as +0, are cut in two, the first part having the larger half, each half is summed the same way, and the two
 * results are added; a single tap is its product added to +0. Take it for kernels of many taps over whole numbers: where every element is one, of magnitude up
 * to 4,096, an output is at most K*h from the exact sum, h being the smallest with 2^h >= K, and also at most koza_convolution's (K-1)*(K+2)/2. That is 36
 * against 44 for K 9, 525 against 2,849 for 75, 3,600 against 80,199 for 400, 49,152 against 8,390,655 for 4,096. Where the magnitudes of an output's products
 * total at most 16,777,216 both are exact. It takes 50 to 130 times as long. */
koza_answer koza_convolution_halved(const uint8_t *sheet, size_t sheet_len, const float *input, size_t input_len, const float *kernel, size_t kernel_len,
                                    float *output, size_t output_len);

/* As koza_convolution, with the kernel [G, I, O, KZ, KY, KX]. */
koza_answer koza_transposed(const uint8_t *sheet, size_t sheet_len, const float *input, size_t input_len, const float *kernel, size_t kernel_len,
                            float *output, size_t output_len);

/* Input [N, C, Z, Y, X]; values and indices [N, C, OZ, OY, OX]. MaxPool-8, or MaxPool-14 where the sheet has a version line. */
koza_answer koza_maxpool(const uint8_t *sheet, size_t sheet_len, const float *input, size_t input_len, float *values, size_t values_len, int64_t *indices,
                         size_t indices_len);

/* ---- sheets */

/* A buffer of this many bytes has room for every sheet. (The program `judge` looks at as many bytes of its input.) */
#define KOZA_SHEET_MAX 512

/* Read the sheet and make checks 1 to 7 of its own operator: the output's sizes, and the lengths of the buffers that the operator takes. */
koza_shape_answer koza_shape(const uint8_t *sheet, size_t sheet_len);
koza_lengths_answer koza_lengths(const uint8_t *sheet, size_t sheet_len);

/* Reads the sheet and writes it back into the buffer. Number 0: the buffer begins with the sheet's own bytes, `length` of them, and nothing beyond them is
 * touched. Numbers 0 and 20 to 24. */
koza_written koza_rewrite(const uint8_t *sheet, size_t sheet_len, uint8_t *buffer, size_t buffer_len);

/* ---- planes */

/* The plane of rows and columns at an image, a channel and a depth of the tensor [N, C, Z, Y, X]: `length` elements from tensor + `start` on. Sizes of axes
 * that the tensor lacks are 1, so its depth is 0. The plane is refused where a size is outside its limit, tensor_len is not N*C*Z*Y*X, or image, channel or
 * depth is not below its count; so also for an output that has more than 1,024 channels or 4,096 depths, rows or columns. A tensor of more than 16,777,216
 * elements is taken. No element is looked at. */
koza_part koza_plane(const float *tensor, size_t tensor_len, uint32_t n, uint32_t c, uint32_t z, uint32_t y, uint32_t x, uint32_t image, uint32_t channel,
                     uint32_t depth);

/* The first largest element of a plane with rows of `width` elements. 8: width 0, no element, or a length that is no multiple of the width. 9: `bad` bad
 * elements, the first at `place`. */
koza_peak_answer koza_peak(const float *plane, size_t plane_len, size_t width);

/* ---- helpers of the header alone, not proved */

/* Whether the floating-point mode of this thread is the one that the promises assume: rounding to nearest, subnormal numbers kept in operands and results. */
static inline int koza_float_mode_ok(void) {
    const float step = 1.0f / 8388608.0f; /* 2^-23, from 1 to the next float */
    volatile float one = 1.0f, next = 1.0f + step, half = step / 2.0f;
    volatile float least_normal = 1.17549435e-38f, least = 1.40129846e-45f, large = 8388608.0f;
    volatile float down = one + half;          /* halfway between 1 and the next float: 1 is even */
    volatile float up = next + half;           /* halfway between the next two: the upper one is even */
    volatile float result = least_normal / 2;  /* a subnormal result */
    volatile float operand = least * large;    /* a subnormal operand: 2^-149 * 2^23 is 2^-126 */
    return down == one && up == 1.0f + 2.0f * step && result != 0.0f && operand == least_normal;
}

/* Whether two buffers, given by their bytes, have a byte in common. */
static inline int koza_overlap(const void *a, size_t a_bytes, const void *b, size_t b_bytes) {
    uintptr_t p = (uintptr_t)a, q = (uintptr_t)b;
    return a_bytes != 0 && b_bytes != 0 && (p <= q ? q - p < a_bytes : p - q < b_bytes);
}

#ifdef __cplusplus
}
#endif

#endif
