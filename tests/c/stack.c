/* Measures how much stack each function of the archive takes, its return address included. Each call runs on a stack of its own that is painted
 * before; afterwards the lowest byte that was touched is looked for. An empty function with the same parameters tells where the call begins.
 * It prints the most for each function and ends with status 1 if one takes its limit or more. A function with an array of 4,096 bytes is measured
 * too, which shows that the measuring sees what it should. */
#define _GNU_SOURCE
#include "kozamyure.h"
#include <inttypes.h>
#include <math.h>
#include <stdio.h>
#include <stdlib.h>
#include <string.h>
#include <sys/mman.h>
#include <ucontext.h>

#define COUNT(table) (sizeof(table) / sizeof(table)[0])
/* Halved sums of 4,096 taps are 13 calls deep. */
enum { LIMIT = 3072, HALVED_LIMIT = 4608, CONTROL_BYTES = 4096 };

/* ---- the call at hand: its arguments, its number */

enum function { VERSION, SHAPE, LENGTHS, CONVOLUTION, HALVED, TRANSPOSED, MAXPOOL, REWRITE, PLANE, PEAK, CONTROL, FUNCTIONS };
static const char *const NAMES[FUNCTIONS] = {"koza_version", "koza_shape", "koza_lengths", "koza_convolution", "koza_convolution_halved",
                                             "koza_transposed", "koza_maxpool", "koza_rewrite", "koza_plane", "koza_peak", "an array of 4,096 bytes"};

enum { ELEMENTS = 1 << 19 };
static float input[ELEMENTS], kernel[ELEMENTS], output[ELEMENTS];
static int64_t indices[ELEMENTS];

static struct {
    enum function function;
    int real; /* or the empty function in its place */
    uint8_t sheet[2 * KOZA_SHEET_MAX], buffer[2 * KOZA_SHEET_MAX];
    size_t sheet_len, buffer_len, input_len, kernel_len, output_len, indices_len, width;
    uint32_t sizes[5], image, channel, depth;
    uint32_t number;
} at;

/* ---- empty functions, which take what the others take and tell where their return address ends */

static const unsigned char *call_begins;
#define TELL (call_begins = (const unsigned char *)__builtin_frame_address(0) + 16) /* above the frame pointer and the return address */

#pragma GCC diagnostic ignored "-Wunused-parameter"
static uint32_t no_version(void) {
    TELL;
    return 0;
}
static koza_shape_answer no_shape(const uint8_t *sheet, size_t sheet_len) {
    TELL;
    return (koza_shape_answer){0};
}
static koza_lengths_answer no_lengths(const uint8_t *sheet, size_t sheet_len) {
    TELL;
    return (koza_lengths_answer){0};
}
static koza_answer no_sums(const uint8_t *sheet, size_t sheet_len, const float *in, size_t in_len, const float *weights, size_t weights_len,
                           float *out, size_t out_len) {
    TELL;
    return (koza_answer){0};
}
static koza_answer no_maxpool(const uint8_t *sheet, size_t sheet_len, const float *in, size_t in_len, float *values, size_t values_len,
                              int64_t *places, size_t places_len) {
    TELL;
    return (koza_answer){0};
}
static koza_written no_rewrite(const uint8_t *sheet, size_t sheet_len, uint8_t *buffer, size_t buffer_len) {
    TELL;
    return (koza_written){0};
}
static koza_part no_plane(const float *tensor, size_t tensor_len, uint32_t n, uint32_t c, uint32_t z, uint32_t y, uint32_t x, uint32_t image,
                          uint32_t channel, uint32_t depth) {
    TELL;
    return (koza_part){0};
}
static koza_peak_answer no_peak(const float *plane, size_t plane_len, size_t width) {
    TELL;
    return (koza_peak_answer){0};
}

/* ---- the function that shows the measuring */

static uint32_t no_control(void) {
    TELL;
    return 0;
}
static uint32_t control(void) {
    volatile unsigned char array[CONTROL_BYTES];
    for (size_t i = 0; i < CONTROL_BYTES; i++)
        array[i] = (unsigned char)i;
    return array[0];
}

/* Volatile, so that each call is made as it stands. */
static uint32_t (*volatile version[2])(void) = {no_version, koza_version};
static koza_shape_answer (*volatile shape[2])(const uint8_t *, size_t) = {no_shape, koza_shape};
static koza_lengths_answer (*volatile lengths[2])(const uint8_t *, size_t) = {no_lengths, koza_lengths};
typedef koza_answer sums(const uint8_t *, size_t, const float *, size_t, const float *, size_t, float *, size_t);
static sums *volatile convolution[2] = {no_sums, koza_convolution}, *volatile halved[2] = {no_sums, koza_convolution_halved},
                      *volatile transposed[2] = {no_sums, koza_transposed};
static koza_answer (*volatile maxpool[2])(const uint8_t *, size_t, const float *, size_t, float *, size_t, int64_t *,
                                          size_t) = {no_maxpool, koza_maxpool};
static koza_written (*volatile rewrite[2])(const uint8_t *, size_t, uint8_t *, size_t) = {no_rewrite, koza_rewrite};
static koza_part (*volatile plane[2])(const float *, size_t, uint32_t, uint32_t, uint32_t, uint32_t, uint32_t, uint32_t, uint32_t,
                                      uint32_t) = {no_plane, koza_plane};
static koza_peak_answer (*volatile peak[2])(const float *, size_t, size_t) = {no_peak, koza_peak};
static uint32_t (*volatile controls[2])(void) = {no_control, control};

static void make_call(void) {
    const uint8_t *s = at.sheet;
    const uint32_t *size = at.sizes;
    size_t n = at.sheet_len;
    int r = at.real;
    switch (at.function) {
    case VERSION: version[r](); break;
    case SHAPE: at.number = shape[r](s, n).number; break;
    case LENGTHS: at.number = lengths[r](s, n).number; break;
    case CONVOLUTION: at.number = convolution[r](s, n, input, at.input_len, kernel, at.kernel_len, output, at.output_len).number; break;
    case HALVED: at.number = halved[r](s, n, input, at.input_len, kernel, at.kernel_len, output, at.output_len).number; break;
    case TRANSPOSED: at.number = transposed[r](s, n, input, at.input_len, kernel, at.kernel_len, output, at.output_len).number; break;
    case MAXPOOL: at.number = maxpool[r](s, n, input, at.input_len, output, at.output_len, indices, at.indices_len).number; break;
    case REWRITE: at.number = rewrite[r](s, n, at.buffer, at.buffer_len).number; break;
    case PLANE:
        at.number = plane[r](input, at.input_len, size[0], size[1], size[2], size[3], size[4], at.image, at.channel, at.depth).length == 0;
        break;
    case PEAK: at.number = peak[r](input, at.input_len, at.width).number; break;
    default: controls[r](); break;
    }
}

/* ---- the painted stack */

enum { PAGE = 4096, STACK = 1 << 14, PAINT = 0xA5 };
static unsigned char *stack;
static ucontext_t here, there;

/* The page below the stack must not be touched. */
static void make_stack(void) {
    unsigned char *p = mmap(NULL, PAGE + STACK, PROT_READ | PROT_WRITE, MAP_PRIVATE | MAP_ANONYMOUS, -1, 0);
    if (p == MAP_FAILED || mprotect(p, PAGE, PROT_NONE) != 0) {
        fprintf(stderr, "stack: no memory\n");
        exit(2);
    }
    stack = p + PAGE;
    memset(stack, PAINT, STACK);
}

/* Runs on the painted stack; it swaps back at the end, which goes no deeper than the call. */
static void run(void) {
    make_call();
    swapcontext(&there, &here);
}

/* Makes the call and finds the lowest byte that it touched; the stack is painted again. */
static const unsigned char *lowest_touched(enum function function, int real) {
    at.function = function;
    at.real = real;
    getcontext(&there);
    there.uc_stack.ss_sp = stack;
    there.uc_stack.ss_size = STACK;
    there.uc_link = NULL;
    makecontext(&there, run, 0);
    swapcontext(&here, &there);
    unsigned char *p = stack;
    while (p < stack + STACK && *p == PAINT)
        p++;
    memset(p, PAINT, (size_t)(stack + STACK - p));
    return p;
}

static struct {
    const unsigned char *begins; /* the same for all calls of a function */
    size_t most;
    unsigned long calls, refused;
} measured[FUNCTIONS];

static void measure(enum function function) {
    if (!measured[function].begins) {
        lowest_touched(function, 0);
        measured[function].begins = call_begins;
    }
    size_t bytes = (size_t)(measured[function].begins - lowest_touched(function, 1));
    measured[function].calls++;
    measured[function].refused += at.number != 0;
    if (bytes > measured[function].most)
        measured[function].most = bytes;
}

/* ---- what is called */

static const char *const OPS[] = {"convolution", "transposed", "maxpool"}, *const MODES[] = {"explicit", "same_upper", "same_lower", "valid"};
static const uint32_t OUTPUTS[] = {1, 2, 5, 8, 40}, STRIDES[] = {1, 2, 3}, DILATIONS[] = {1, 2}, PADS[] = {0, 1, 9}, KERNELS[] = {1, 2, 3, 5};

typedef struct {
    int op, version, axes, mode; /* version 14: maxpool, with ceil_torch */
    uint32_t outputs, stride, dilation, pad, kernel, channels; /* 2 channels unless it is a convolution */
} layer;

static void add_word(const char *key, const char *word) {
    at.sheet_len += (size_t)sprintf((char *)at.sheet + at.sheet_len, "%s=%s\n", key, word);
}

static void add_channels(const char *head, uint32_t channels) {
    at.sheet_len += (size_t)sprintf((char *)at.sheet + at.sheet_len, "%s%" PRIu32 ",", head, channels);
}

/* A list that ends in a number of X and, before it, one of each other axis; with one axis any number. */
static void add_list(const char *head, int axes, uint32_t other, uint32_t x) {
    char *start = (char *)at.sheet + at.sheet_len, *to = start + sprintf(start, "%s", head);
    for (int axis = 1; axis < axes; axis++)
        to += sprintf(to, "%" PRIu32 ",", other);
    to += sprintf(to, "%" PRIu32 "\n", x);
    at.sheet_len += (size_t)(to - start);
}

/* Rows of `outputs` outputs, where the pads leave room for them, and a few rows and depths. */
static void write_sheet(layer l) {
    uint32_t need = (l.outputs - 1) * l.stride + (l.kernel - 1) * l.dilation + 1, pads = l.mode == 0 ? 2 * l.pad : 0;
    uint32_t in = l.op == 1 ? l.outputs : l.mode == 1 || l.mode == 2 ? l.outputs * l.stride : need > pads ? need - pads : 1;
    uint32_t rows = l.axes == 3 ? l.kernel + 1 : l.kernel + 3; /* fewer where there are depths: the calls stay short */
    at.sheet_len = 0;
    if (l.version == 14)
        add_word("version", "14");
    add_word("op", OPS[l.op]);
    add_list("axes=", 1, 0, (uint32_t)l.axes);
    add_channels("input=2,", l.channels);
    add_list("", l.axes, rows, in);
    if (l.op != 2)
        add_channels("kernel=1,2,", l.channels);
    add_list(l.op == 2 ? "kernel=" : "", l.axes, l.kernel, l.kernel);
    add_list("strides=", l.axes, l.stride, l.stride);
    add_list("dilations=", l.axes, l.dilation, l.dilation);
    add_word("auto_pad", MODES[l.mode]);
    add_list("pads_begin=", l.axes, l.pad, l.pad);
    add_list("pads_end=", l.axes, l.pad, l.pad);
    add_list("output_padding=", l.axes, 0, 0);
    add_word("rounding", l.version == 14 ? "ceil_torch" : "floor");
    add_word("axis", "0");
}

static void call_operator(int op) {
    const enum function own[] = {CONVOLUTION, TRANSPOSED, MAXPOOL};
    measure(own[op]);
    if (op == 0)
        measure(HALVED);
}

/* The sheet at hand, by every function that reads one; where it is accepted also with a bad element in input or kernel, and with a length too short. */
static void call_with_sheet(int op) {
    koza_lengths_answer n = koza_lengths(at.sheet, at.sheet_len);
    if (n.input > ELEMENTS || n.kernel > ELEMENTS || n.output > ELEMENTS) {
        fprintf(stderr, "stack: a layer with more than %d elements\n", ELEMENTS);
        exit(2);
    }
    at.input_len = n.input, at.kernel_len = n.kernel, at.output_len = at.indices_len = n.output;
    measure(SHAPE);
    measure(LENGTHS);
    call_operator(op);
    call_operator((op + 1) % 3);
    if (n.number != 0)
        return;
    input[n.input - 1] = NAN;
    call_operator(op);
    input[n.input - 1] = 1;
    kernel[0] = NAN;
    call_operator(op);
    kernel[0] = 1;
    at.output_len--;
    call_operator(op);
}

static void call_rewrite(void) {
    for (size_t room = at.sheet_len - 1; room <= at.sheet_len + 1; room++) {
        at.buffer_len = room;
        measure(REWRITE);
    }
}

static void call_layers(int op, int version, int axes) {
    layer l = {.op = op, .version = version, .axes = axes, .channels = 2};
    for (size_t i = 0; i < COUNT(OUTPUTS) * COUNT(STRIDES) * COUNT(DILATIONS) * COUNT(PADS) * COUNT(KERNELS) * COUNT(MODES); i++) {
        size_t rest = i;
        l.outputs = OUTPUTS[rest % COUNT(OUTPUTS)], rest /= COUNT(OUTPUTS);
        l.stride = STRIDES[rest % COUNT(STRIDES)], rest /= COUNT(STRIDES);
        l.dilation = DILATIONS[rest % COUNT(DILATIONS)], rest /= COUNT(DILATIONS);
        l.pad = PADS[rest % COUNT(PADS)], rest /= COUNT(PADS);
        l.kernel = KERNELS[rest % COUNT(KERNELS)], rest /= COUNT(KERNELS);
        l.mode = (int)rest;
        write_sheet(l);
        call_with_sheet(op);
        call_rewrite();
    }
}

/* Convolutions with 4,096 taps, all inside and not: a run of them is cut in two twelve times. */
static void call_most_taps(int axes) {
    layer l = {.version = 8, .axes = axes, .stride = 1, .dilation = 1, .kernel = axes == 3 ? 16 : 64, .channels = axes == 1 ? 64 : 1};
    for (size_t i = 0; i < COUNT(OUTPUTS); i++)
        for (l.pad = 0; l.pad <= 1; l.pad++) {
            l.outputs = OUTPUTS[i];
            write_sheet(l);
            call_with_sheet(0);
        }
}

/* Each byte of a sheet in turn is another one, or the sheet ends before it. */
static void call_bad_sheets(int op, int version, int axes) {
    const uint8_t others[] = {0, '\n', ',', '-', '0', '9', 'x'};
    write_sheet((layer){op, version, axes, 0, 5, 1, 1, 1, 3, 2});
    for (size_t i = 0, len = at.sheet_len; i < len; i++) {
        uint8_t byte = at.sheet[i];
        for (size_t o = 0; o < COUNT(others); o++) {
            at.sheet[i] = others[o];
            call_with_sheet(op);
            call_rewrite();
        }
        at.sheet[i] = byte;
        at.sheet_len = i;
        call_with_sheet(op);
        at.buffer_len = KOZA_SHEET_MAX;
        measure(REWRITE);
        at.sheet_len = len;
    }
}

/* The longest sheet of transposed, or of maxpool at version 14: numbers of ten digits. */
static void call_longest_sheet(int axes, int pool) {
#define MAX "4294967295"
    uint32_t padding = pool ? 0 : UINT32_MAX;
    at.sheet_len = 0;
    if (pool)
        add_word("version", "14");
    add_word("op", pool ? "maxpool" : "transposed");
    add_list("axes=", 1, 0, (uint32_t)axes);
    add_list("input=" MAX "," MAX ",", axes, UINT32_MAX, UINT32_MAX);
    add_list(pool ? "kernel=" : "kernel=" MAX "," MAX "," MAX ",", axes, UINT32_MAX, UINT32_MAX);
    add_list("strides=", axes, UINT32_MAX, UINT32_MAX);
    add_list("dilations=", axes, UINT32_MAX, UINT32_MAX);
    add_word("auto_pad", "same_upper");
    add_list("pads_begin=", axes, UINT32_MAX, UINT32_MAX);
    add_list("pads_end=", axes, UINT32_MAX, UINT32_MAX);
    add_list("output_padding=", axes, padding, padding);
    add_word("rounding", pool ? "ceil_torch" : "floor");
    add_word("axis", pool ? "-9" : "0");
    call_with_sheet(pool ? 2 : 1);
    call_rewrite();
}

static void call_planes(void) {
    const uint32_t sizes[][5] = {{2, 3, 1, 4, 5}, {0, 3, 1, 4, 5}, {2, 3, 1, 4, 4097}, {1, 1, 1, 1, 1}, {16, 4, 1, 8, 8}, {17, 1, 1, 1, 1},
                                 {2, 3, 4, 5, 6}, {2, 3, 0, 5, 6}, {2, 3, 4097, 5, 6}};
    for (size_t i = 0; i < COUNT(sizes); i++)
        for (at.image = 0; at.image < 3; at.image++) {
            at.channel = at.depth = at.image;
            memcpy(at.sizes, sizes[i], sizeof at.sizes);
            at.input_len = (size_t)sizes[i][0] * sizes[i][1] * sizes[i][2] * sizes[i][3] * sizes[i][4];
            measure(PLANE);
        }
}

static void call_peaks(void) {
    for (at.input_len = 0; at.input_len < 50; at.input_len++)
        for (at.width = 0; at.width < 9; at.width++) {
            input[at.input_len / 2] = 2;
            measure(PEAK);
            input[at.input_len / 2] = NAN;
            measure(PEAK);
            input[at.input_len / 2] = 1;
        }
}

/* ---- all of it */

static int report(void) {
    int failed = 0;
    for (int f = 0; f < CONTROL; f++) {
        printf("%-23s %5zu bytes at most, %lu calls, %lu of them refused\n", NAMES[f], measured[f].most, measured[f].calls, measured[f].refused);
        size_t limit = f == HALVED ? HALVED_LIMIT : LIMIT;
        if (measured[f].most >= limit)
            failed = printf("%s takes %zu bytes or more\n", NAMES[f], limit);
    }
    printf("%s: measured as %zu\n", NAMES[CONTROL], measured[CONTROL].most);
    if (measured[CONTROL].most < CONTROL_BYTES || measured[CONTROL].most > CONTROL_BYTES + 256)
        failed = printf("the measuring is wrong\n");
    return failed != 0;
}

int main(void) {
    make_stack();
    for (size_t i = 0; i < ELEMENTS; i++)
        input[i] = kernel[i] = 1;
    measure(CONTROL);
    measure(VERSION);
    for (int axes = 1; axes <= 3; axes++) {
        for (int op = 0; op < 3; op++) {
            call_layers(op, 8, axes);
            call_bad_sheets(op, 8, axes);
        }
        call_most_taps(axes);
        call_layers(2, 14, axes);
        call_bad_sheets(2, 14, axes);
        for (int pool = 0; pool < 2; pool++)
            call_longest_sheet(axes, pool);
    }
    call_planes();
    call_peaks();
    return report();
}
