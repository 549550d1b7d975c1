/* Calls every function of include/kozamyure.h at its borders and compares each answer, and what became of the lent memory, with document 01.
 * What is expected stands in the tables below or follows from document 01's size formulas (size_along); nothing of it comes from the library.
 * It prints how many calls it made and how many differ, the first of these in full, and ends with status 1 if one differs.
 * It needs Linux on x86-64, and -lm for fesetround. */
#define _GNU_SOURCE
#include "kozamyure.h"
#include <fenv.h>
#include <inttypes.h>
#include <math.h>
#include <signal.h>
#include <stdarg.h>
#include <stdio.h>
#include <stdlib.h>
#include <string.h>
#include <sys/mman.h>
#include <unistd.h>
#include <xmmintrin.h>

#define COUNT(table) (sizeof(table) / sizeof(table)[0])
#define LARGEST UINT64_C(4294967295)

/* ---- calls and differences */

typedef struct {
    char text[256];
} words;

static words say(const char *format, ...) {
    words w;
    va_list arguments;
    va_start(arguments, format);
    vsnprintf(w.text, sizeof w.text, format, arguments);
    va_end(arguments);
    return w;
}

static unsigned long calls, differ, not_tried;
static words about; /* the case at hand */
static const uint8_t *sheet;
static size_t sheet_len;

static void print_sheet(void) {
    printf("  sheet    %zu bytes: ", sheet_len);
    for (size_t i = 0; i < sheet_len; i++)
        sheet[i] == '\n' ? printf("\\n ") : sheet[i] < ' ' || sheet[i] > '~' ? printf("\\x%02x", sheet[i]) : putchar(sheet[i]);
    putchar('\n');
}

/* What was expected of a function and what it did, in words. */
static void check(const char *function, words expected, words answered) {
    if (strcmp(expected.text, answered.text) == 0)
        return;
    differ++;
    if (differ > 20)
        return;
    printf("%s, %s\n  expected %s\n  answered %s\n", function, about.text, expected.text, answered.text);
    if (sheet_len > 0)
        print_sheet();
}

/* The same, of one call. */
static void compare(const char *function, words expected, words answered) {
    calls++;
    check(function, expected, answered);
}

/* ---- lent memory: it ends where a page begins that must not be touched, and the bytes before it are looked at too */

enum { SHEET, INPUT, KERNEL, OUTPUT, INDICES, BUFFERS };
enum { PAGE = 4096, ROOM = 1 << 27, GUARD = 256, PATTERN = 0xA5 };
static const char *const BUFFER_NAMES[BUFFERS] = {"sheet", "input", "kernel", "output", "indices"};

static struct {
    unsigned char *end, *copy_end;
    size_t bytes;
} lent[BUFFERS];

static int null_where_empty = 1;

/* Address space, null where there is none. */
static void *reserve(size_t bytes, int protection) {
    void *p = mmap(NULL, bytes, protection, MAP_PRIVATE | MAP_ANONYMOUS | MAP_NORESERVE, -1, 0);
    return p == MAP_FAILED ? NULL : p;
}

/* Memory was touched that is not lent: no answer comes back. */
static void fault(int number) {
    printf("signal %d in or after a call of this case: %s\n", number, about.text);
    print_sheet();
    fflush(stdout);
    _exit(1);
}

static void make_memory(void) {
    signal(SIGSEGV, fault);
    signal(SIGBUS, fault);
    for (int b = 0; b < BUFFERS; b++) {
        unsigned char *p = reserve(PAGE + (size_t)ROOM + PAGE, PROT_READ | PROT_WRITE), *copy = reserve(PAGE + (size_t)ROOM, PROT_READ | PROT_WRITE);
        if (!p || !copy || mprotect(p + PAGE + ROOM, PAGE, PROT_NONE) != 0) {
            fprintf(stderr, "limits: no memory\n");
            exit(2);
        }
        lent[b].end = p + PAGE + ROOM;
        lent[b].copy_end = copy + PAGE + ROOM;
    }
}

static void *lend(int b, size_t bytes) {
    if (bytes > ROOM) {
        fprintf(stderr, "limits: %zu bytes are more than the %s may have (%s)\n", bytes, BUFFER_NAMES[b], about.text);
        exit(2);
    }
    lent[b].bytes = bytes;
    memset(lent[b].end - bytes - GUARD, PATTERN, bytes + GUARD);
    return bytes == 0 && null_where_empty ? NULL : lent[b].end - bytes;
}

static void remember(int b) {
    memcpy(lent[b].copy_end - lent[b].bytes - GUARD, lent[b].end - lent[b].bytes - GUARD, lent[b].bytes + GUARD);
}

static int kept(int b) {
    return memcmp(lent[b].copy_end - lent[b].bytes - GUARD, lent[b].end - lent[b].bytes - GUARD, lent[b].bytes + GUARD) == 0;
}

/* The first element that still holds the pattern, or the count of elements. */
static size_t not_written(int b, size_t element_bytes) {
    const unsigned char *start = lent[b].end - lent[b].bytes, *pattern = lent[b].copy_end - lent[b].bytes;
    size_t i = 0, count = lent[b].bytes / element_bytes;
    while (i < count && memcmp(start + i * element_bytes, pattern + i * element_bytes, element_bytes) != 0)
        i++;
    return i;
}

/* What a call with this number did to the lent memory: it should keep all, or, with 0, write every output. */
static words memory_after(uint32_t number) {
    for (int b = SHEET; b < (number == 0 ? OUTPUT : BUFFERS); b++)
        if (!kept(b))
            return say("%s changed", BUFFER_NAMES[b]);
    for (int b = OUTPUT; number == 0 && b < BUFFERS; b++) {
        if (memcmp(lent[b].end - lent[b].bytes - GUARD, lent[b].copy_end - lent[b].bytes - GUARD, GUARD) != 0)
            return say("bytes before the %s changed", BUFFER_NAMES[b]);
        size_t size = b == OUTPUT ? sizeof(float) : sizeof(int64_t), first = not_written(b, size);
        if (first < lent[b].bytes / size)
            return say("%s: element %zu not written", BUFFER_NAMES[b], first);
    }
    return say(number == 0 ? "outputs written" : "memory kept");
}

static void set_sheet(const void *bytes, size_t len) {
    uint8_t *to = lend(SHEET, len);
    if (len > 0)
        memcpy(to, bytes, len);
    remember(SHEET);
    sheet = to;
    sheet_len = len;
}

/* ---- layers */

enum op { CONVOLUTION, TRANSPOSED, MAXPOOL, OPS };
static const char *const OP_NAMES[OPS] = {"convolution", "transposed", "maxpool"};

/* Convolution has a function for each summing profile; the answers of both are the same. */
enum function { RUNNING, HALVED, TRANSPOSE, POOL, FUNCTIONS };
static const struct {
    enum op op;
    const char *name;
    koza_answer (*sums)(const uint8_t *, size_t, const float *, size_t, const float *, size_t, float *, size_t); /* none for maxpool */
} FUNCTION[FUNCTIONS] = {
    [RUNNING] = {CONVOLUTION, "koza_convolution", koza_convolution},
    [HALVED] = {CONVOLUTION, "koza_convolution_halved", koza_convolution_halved},
    [TRANSPOSE] = {TRANSPOSED, "koza_transposed", koza_transposed},
    [POOL] = {MAXPOOL, "koza_maxpool", NULL},
};
static const char *const MODES[] = {"explicit", "same_upper", "same_lower", "valid"};

/* The numbers of a sheet. From Z on each number of Z is followed by those of Y and X. */
enum field { NONE, N, C, G, O, I, Z, Y, X, KZ, KY, KX, SZ, SY, SX, DZ, DY, DX, BZ, BY, BX, EZ, EY, EX, PZ, PY, PX, FIELDS };
static const struct {
    const char *name;
    uint32_t line;
} FIELD[FIELDS] = {
    [N] = {"N", 3}, [C] = {"C", 3}, [G] = {"G", 4}, [O] = {"O", 4}, [I] = {"I", 4}, [Z] = {"Z", 3}, [Y] = {"Y", 3}, [X] = {"X", 3},
    [KZ] = {"KZ", 4}, [KY] = {"KY", 4}, [KX] = {"KX", 4}, [SZ] = {"stride Z", 5}, [SY] = {"stride Y", 5}, [SX] = {"stride X", 5},
    [DZ] = {"dilation Z", 6}, [DY] = {"dilation Y", 6}, [DX] = {"dilation X", 6}, [BZ] = {"pad at Z's begin", 8}, [BY] = {"pad at Y's begin", 8},
    [BX] = {"pad at X's begin", 8}, [EZ] = {"pad at Z's end", 9}, [EY] = {"pad at Y's end", 9}, [EX] = {"pad at X's end", 9},
    [PZ] = {"output padding Z", 10}, [PY] = {"output padding Y", 10}, [PX] = {"output padding X", 10},
};

typedef struct {
    enum op op;
    int axes, axis, version; /* version 8: no version line */
    const char *auto_pad, *rounding;
    uint64_t field[FIELDS];
} layer;

static words layer_words(const layer *l) {
    return say("%s, version %d, axes %d, %s, %s", OP_NAMES[l->op], l->version, l->axes, l->auto_pad, l->rounding);
}

/* The place of a field's axis in Z, Y, X; 2 for a field of no axis, which every number of axes has. */
static int axis_of(enum field f) {
    return f < Z ? 2 : (f - Z) % 3;
}

static int in_sheet(const layer *l, enum field f) {
    return !(l->op == MAXPOOL && f >= G && f <= I) && axis_of(f) >= 3 - l->axes;
}

static int is_pad(enum field f) {
    return f >= BZ && f <= EX;
}

/* Where the tests start from: every operator takes it. Its pads, two strides and two dilations are not the defaults. */
static layer base(enum op op, int axes) {
    layer l = {op, axes, 0, 8, "explicit", "floor",
               {[N] = 2, [C] = 4, [G] = 2, [O] = 3, [I] = 2, [Z] = 4, [Y] = 6, [X] = 7, [KZ] = 2, [KY] = 3, [KX] = 2, [SZ] = 3, [SY] = 2, [SX] = 1,
                [DZ] = 2, [DY] = 1, [DX] = 2, [BZ] = 1, [BY] = 1, [BX] = 1, [EZ] = 1, [EY] = 1, [EX] = 1}};
    if (op == TRANSPOSED)
        l.field[PZ] = 2, l.field[PY] = 1;
    if (op == MAXPOOL)
        l.field[G] = l.field[O] = l.field[I] = 1;
    for (int f = Z; f < FIELDS; f++)
        if (!in_sheet(&l, (enum field)f))
            l.field[f] = f < BZ; /* pads and output padding 0, all else 1 */
    return l;
}

/* The same of MaxPool-14. */
static layer base_14(int axes) {
    layer l = base(MAXPOOL, axes);
    l.version = 14;
    return l;
}

/* The number of a line that a sheet of version 8 has at `line`. */
static uint32_t line_of(const layer *l, uint32_t line) {
    return l->version == 8 ? line : line + 1;
}

static int is_same(const layer *l) {
    return strncmp(l->auto_pad, "same", 4) == 0;
}

static int put_list(char *to, const layer *l, const char *key, const enum field *fields, size_t count) {
    int n = sprintf(to, "%s", key);
    for (size_t i = 0; i < count; i++)
        if (in_sheet(l, fields[i]))
            n += sprintf(to + n, "%s%" PRIu64, to[n - 1] == '=' ? "" : ",", l->field[fields[i]]);
    return n + sprintf(to + n, "\n");
}

#define LIST(key, ...) n += put_list(to + n, l, key, (const enum field[]){__VA_ARGS__}, COUNT(((const enum field[]){__VA_ARGS__})))

/* The layer's sheet, its length returned. */
static size_t write_layer(char *to, const layer *l) {
    int n = l->version == 8 ? 0 : sprintf(to, "version=%d\n", l->version);
    n += sprintf(to + n, "op=%s\naxes=%d\n", OP_NAMES[l->op], l->axes);
    LIST("input=", N, C, Z, Y, X);
    if (l->op == TRANSPOSED)
        LIST("kernel=", G, I, O, KZ, KY, KX);
    else
        LIST("kernel=", G, O, I, KZ, KY, KX);
    LIST("strides=", SZ, SY, SX);
    LIST("dilations=", DZ, DY, DX);
    n += sprintf(to + n, "auto_pad=%s\n", l->auto_pad);
    LIST("pads_begin=", BZ, BY, BX);
    LIST("pads_end=", EZ, EY, EX);
    LIST("output_padding=", PZ, PY, PX);
    return (size_t)(n + sprintf(to + n, "rounding=%s\naxis=%d\n", l->rounding, l->axis));
}

/* ---- the sizes of an accepted layer, by document 01, "Sizes along one axis" */

/* Along Z (0), Y (1) or X (2). */
static uint64_t size_along(const layer *l, int axis) {
    const uint64_t *f = l->field + axis;
    int explicit = strcmp(l->auto_pad, "explicit") == 0;
    uint64_t in = f[Z], s = f[SZ], k = (f[KZ] - 1) * f[DZ] + 1, begin = explicit ? f[BZ] : 0, pads = explicit ? begin + f[EZ] : 0;
    if (l->op == TRANSPOSED)
        return (in - 1) * s + k - pads + f[PZ];
    if (is_same(l))
        return (in + s - 1) / s;
    int torch = strcmp(l->rounding, "ceil_torch") == 0, ceil = torch || strcmp(l->rounding, "ceil") == 0;
    if (!explicit && !ceil)
        return (in - k + 1 + s - 1) / s;
    uint64_t room = in + pads - k, out = (ceil ? (room + s - 1) / s : room / s) + 1;
    return torch && (out - 1) * s >= in + begin ? out - 1 : out;
}

static koza_shape_answer shape_of(const layer *l) {
    uint64_t channels = l->op == MAXPOOL ? l->field[C] : l->field[G] * l->field[O];
    return (koza_shape_answer){.axes = (uint32_t)l->axes, .n = (uint32_t)l->field[N], .c = (uint32_t)channels, .z = (uint32_t)size_along(l, 0),
                               .y = (uint32_t)size_along(l, 1), .x = (uint32_t)size_along(l, 2)};
}

static koza_lengths_answer lengths_of(const layer *l) {
    const uint64_t *f = l->field;
    koza_shape_answer s = shape_of(l);
    return (koza_lengths_answer){.input = f[N] * f[C] * f[Z] * f[Y] * f[X],
                                 .kernel = l->op == MAXPOOL ? 0 : f[G] * f[O] * f[I] * f[KZ] * f[KY] * f[KX],
                                 .output = (size_t)s.n * s.c * s.z * s.y * s.x};
}

/* ---- calls with the sheet at hand */

static words shape_words(koza_shape_answer s, const char *memory) {
    return say("number %u, line %u, axes %u, n %u, c %u, z %u, y %u, x %u; %s", s.number, s.line, s.axes, s.n, s.c, s.z, s.y, s.x, memory);
}

static words lengths_words(koza_lengths_answer n, const char *memory) {
    return say("number %u, line %u, input %zu, kernel %zu, output %zu; %s", n.number, n.line, n.input, n.kernel, n.output, memory);
}

static words answer_words(koza_answer a, const char *memory) {
    return say("number %u, line %u, tensor %u, place %zu, bad %zu; %s", a.number, a.line, a.tensor, a.place, a.bad, memory);
}

static void call_shape(koza_shape_answer expected) {
    koza_shape_answer s = koza_shape(sheet, sheet_len);
    compare("koza_shape", shape_words(expected, "memory kept"), shape_words(s, kept(SHEET) ? "memory kept" : "sheet changed"));
}

static void call_lengths(koza_lengths_answer expected) {
    koza_lengths_answer n = koza_lengths(sheet, sheet_len);
    compare("koza_lengths", lengths_words(expected, "memory kept"), lengths_words(n, kept(SHEET) ? "memory kept" : "sheet changed"));
}

/* The lengths of the buffers that are lent, in elements. */
typedef struct {
    size_t input, kernel, output, indices;
} lengths;

static lengths lend_all(enum op op, koza_lengths_answer n) {
    return (lengths){n.input, n.kernel, n.output, op == MAXPOOL ? n.output : 0};
}

/* A float of the input (tensor 0) or the kernel (1), by its bits. */
typedef struct {
    uint32_t tensor;
    size_t place;
    uint32_t bits;
} element;

static koza_answer call(enum function f, const float *input, const float *kernel, float *output, int64_t *indices, lengths n) {
    if (f == POOL)
        return koza_maxpool(sheet, sheet_len, input, n.input, output, n.output, indices, n.indices);
    return FUNCTION[f].sums(sheet, sheet_len, input, n.input, kernel, n.kernel, output, n.output);
}

static void call_function(enum function f, lengths n, const element *put, size_t puts, koza_answer expected) {
    float *input = lend(INPUT, n.input * sizeof *input), *kernel = lend(KERNEL, n.kernel * sizeof *kernel);
    float *output = lend(OUTPUT, n.output * sizeof *output);
    int64_t *indices = lend(INDICES, n.indices * sizeof *indices);
    for (size_t i = 0; i < n.input; i++)
        input[i] = (float)(i % 3 + 1);
    for (size_t i = 0; i < n.kernel; i++)
        kernel[i] = (float)(i % 5 + 1);
    for (size_t i = 0; i < puts; i++)
        memcpy((put[i].tensor == 0 ? input : kernel) + put[i].place, &put[i].bits, sizeof put[i].bits);
    for (int b = INPUT; b < BUFFERS; b++)
        remember(b);
    koza_answer a = call(f, input, kernel, output, indices, n);
    const char *memory = expected.number == 0 ? "outputs written" : "memory kept";
    compare(FUNCTION[f].name, answer_words(expected, memory), answer_words(a, memory_after(a.number).text));
}

/* Every function of the operator. */
static void call_operator(enum op op, lengths n, const element *put, size_t puts, koza_answer expected) {
    for (int f = 0; f < FUNCTIONS; f++)
        if (FUNCTION[f].op == op)
            call_function((enum function)f, n, put, puts, expected);
}

/* A number that the sheet decides: all functions that take the layer's own operator. */
static void try_layer(const layer *l, uint32_t number) {
    char text[KOZA_SHEET_MAX * 2];
    uint32_t line = number == 23 ? line_of(l, 10) : 0; /* of the lists, output_padding alone can be unused */
    set_sheet(text, write_layer(text, l));
    call_shape(number == 0 ? shape_of(l) : (koza_shape_answer){.number = number, .line = line});
    call_lengths(number == 0 ? lengths_of(l) : (koza_lengths_answer){.number = number, .line = line});
    koza_lengths_answer any = {.input = 5, .kernel = 4, .output = 3}; /* lengths that no check before 8 looks at */
    call_operator(l->op, lend_all(l->op, number == 0 ? lengths_of(l) : any), NULL, 0, (koza_answer){.number = number, .line = line});
}

/* A sheet that the reader refuses: all functions that read one. */
static void try_refused_sheet(uint32_t number, uint32_t line) {
    call_shape((koza_shape_answer){.number = number, .line = line});
    call_lengths((koza_lengths_answer){.number = number, .line = line});
    for (int op = 0; op < OPS; op++)
        call_operator((enum op)op, (lengths){5, 4, 3, op == MAXPOOL ? 3 : 0}, NULL, 0, (koza_answer){.number = number, .line = line});
    uint8_t *buffer = lend(OUTPUT, KOZA_SHEET_MAX);
    remember(OUTPUT);
    koza_written w = koza_rewrite(sheet, sheet_len, buffer, KOZA_SHEET_MAX);
    compare("koza_rewrite", say("number %u, line %u, length 0; memory kept", number, line),
            say("number %u, line %u, length %zu; %s", w.number, w.line, w.length, memory_after(number).text));
}

/* ---- every number of a sheet at its limits */

/* For each operator (convolution, transposed, maxpool): the number outside of least..limit, at least and at limit, where all else is as in base().
 * Its depths: convolution and maxpool P 6, k' 3; its rows: P 8, k' 3; its columns: P 9, k' 3; transposed 9 + 3 - 2 + 2 depths, 10 + 3 - 2 + 1 rows,
 * 6 + 3 - 2 columns. */
static const struct {
    enum field field;
    uint64_t least, limit;
    uint32_t outside[OPS], at_least[OPS], at_limit[OPS];
} LIMITS[] = {
    {N, 1, 16, {1, 1, 1}, {0, 0, 0}, {0, 0, 0}},
    {C, 1, 1024, {1, 1, 1}, {3, 3, 0}, {3, 3, 0}}, /* C is not G*I = 4 */
    {G, 1, 1024, {1, 1, 1}, {3, 3, 0}, {3, 3, 0}},
    {O, 1, 1024, {1, 1, 1}, {0, 0, 0}, {0, 0, 0}},
    {I, 1, 1024, {1, 1, 1}, {3, 3, 0}, {3, 3, 0}},
    {Z, 1, 4096, {1, 1, 1}, {0, 0, 7}, {0, 0, 0}},   /* depths -1 and 1 of one: no element */
    {Y, 1, 4096, {1, 1, 1}, {0, 0, 0}, {0, 0, 0}},
    {X, 1, 4096, {1, 1, 1}, {0, 0, 7}, {0, 0, 0}},   /* columns -1 and 1 of one: no element */
    {KZ, 1, 64, {1, 1, 1}, {0, 0, 7}, {5, 0, 5}},    /* depth -1 alone; k' 127 */
    {KY, 1, 64, {1, 1, 1}, {0, 0, 7}, {5, 0, 5}},    /* row -1 alone; k' 64 */
    {KX, 1, 64, {1, 1, 1}, {0, 0, 7}, {5, 0, 5}},    /* column -1 alone; k' 127 */
    {SZ, 1, 16, {2, 2, 2}, {0, 0, 0}, {0, 0, 0}},
    {SY, 1, 16, {2, 2, 2}, {0, 0, 0}, {0, 0, 0}},
    {SX, 1, 16, {2, 2, 2}, {0, 0, 0}, {0, 0, 0}},
    {DZ, 1, 16, {2, 2, 2}, {0, 0, 0}, {5, 0, 5}},    /* k' 17 */
    {DY, 1, 16, {2, 2, 2}, {0, 0, 0}, {5, 0, 5}},    /* k' 33 */
    {DX, 1, 16, {2, 2, 2}, {0, 0, 0}, {5, 0, 5}},    /* k' 17 */
    {BZ, 0, 1024, {2, 2, 2}, {0, 0, 0}, {0, 5, 7}},  /* transposed out < 1; windows before the input */
    {BY, 0, 1024, {2, 2, 2}, {0, 0, 0}, {0, 5, 7}},
    {BX, 0, 1024, {2, 2, 2}, {0, 0, 0}, {0, 5, 7}},
    {EZ, 0, 1024, {2, 2, 2}, {0, 0, 0}, {0, 5, 7}},
    {EY, 0, 1024, {2, 2, 2}, {0, 0, 0}, {0, 5, 7}},
    {EX, 0, 1024, {2, 2, 2}, {0, 0, 0}, {0, 5, 7}},
    {PZ, 0, 15, {23, 2, 23}, {0, 0, 0}, {23, 0, 23}}, /* transposed alone uses output padding */
    {PY, 0, 15, {23, 2, 23}, {0, 0, 0}, {23, 0, 23}},
    {PX, 0, 15, {23, 2, 23}, {0, 0, 0}, {23, 0, 23}},
};

static void try_value(layer l, enum field f, uint64_t value, uint32_t number) {
    about = say("%s, %s %" PRIu64, layer_words(&l).text, FIELD[f].name, value);
    l.field[f] = value;
    try_layer(&l, number);
}

/* One number more than a sheet can show. */
static void try_too_large(layer l, enum field f) {
    char text[KOZA_SHEET_MAX * 2];
    about = say("%s, %s 4294967296", layer_words(&l).text, FIELD[f].name);
    l.field[f] = LARGEST + 1;
    set_sheet(text, write_layer(text, &l));
    try_refused_sheet(21, line_of(&l, FIELD[f].line));
}

static void try_limits(layer l) {
    int explicit = strcmp(l.auto_pad, "explicit") == 0;
    uint32_t taken = l.op == TRANSPOSED && is_same(&l) ? 2 : 0; /* the layer as it is: transposed has no same mode */
    for (size_t i = 0; i < COUNT(LIMITS); i++) {
        enum field f = LIMITS[i].field;
        if (!in_sheet(&l, f))
            continue;
        uint32_t outside = is_pad(f) && !explicit ? taken : LIMITS[i].outside[l.op]; /* only explicit looks at the pads */
        if (LIMITS[i].least > 0)
            try_value(l, f, LIMITS[i].least - 1, outside);
        try_value(l, f, LIMITS[i].limit + 1, outside);
        try_value(l, f, LARGEST, outside);
        try_value(l, f, l.field[f], taken);
        if (explicit || is_pad(f)) {
            try_value(l, f, LIMITS[i].least, explicit ? LIMITS[i].at_least[l.op] : taken);
            try_value(l, f, LIMITS[i].limit, explicit ? LIMITS[i].at_limit[l.op] : taken);
        }
        try_too_large(l, f);
    }
}

/* ---- several numbers at once */

typedef struct {
    enum field field;
    uint64_t value;
} setting;

/* The lowest number that holds; counts at 16,777,216 = 2^24 and one more (97*257*673), some whose product is small modulo 2^32. A case that sets a number of
 * Z has three axes, any other two. */
static const struct {
    enum op op;
    uint32_t number;
    setting set[18];
} COMBINED[] = {
#define NO_PADS {BY, 0}, {BX, 0}, {EY, 0}, {EX, 0}
#define NO_PADS_3 NO_PADS, {BZ, 0}, {EZ, 0}
#define CUBES(size, kernel) {Z, size}, {Y, size}, {X, size}, {KZ, kernel}, {KY, kernel}, {KX, kernel}
    {CONVOLUTION, 1, {{N, 0}, {SY, 0}, {C, 5}}},
    {CONVOLUTION, 2, {{SY, 0}, {C, 5}}},
    {CONVOLUTION, 3, {{C, 5}, {I, 1024}}},                                           /* K 6,144 */
    {CONVOLUTION, 4, {{C, 1024}, {G, 1}, {I, 1024}, {Y, 1}, {BY, 0}}},               /* P 2 < k' 3 */
    {CONVOLUTION, 5, {{Y, 1}, {BY, 0}, {N, 16}, {O, 1024}, {X, 4096}}},              /* 2^27 outputs for each row */
    {CONVOLUTION, 0, {{C, 64}, {G, 1}, {I, 64}, {KY, 8}, {KX, 8}, {DX, 1}}},         /* K 4,096 */
    {CONVOLUTION, 4, {{C, 65}, {G, 1}, {I, 65}, {KY, 8}, {KX, 8}, {DX, 1}}},         /* K 4,160 */
    {CONVOLUTION, 4, {{N, 16}, {C, 1024}, {G, 1024}, {I, 1}, {Y, 4096}, {X, 4096}}}, /* 2^38 inputs */
    {CONVOLUTION, 4, {{N, 1}, {C, 97}, {G, 97}, {I, 1}, {Y, 257}, {X, 673}}},        /* 2^24 + 1 inputs */
    {CONVOLUTION, 4, {{C, 1024}, {G, 1024}, {I, 1}, {O, 1024}, {KY, 64}, {KX, 64}}}, /* 2^32 weights */
    {CONVOLUTION, 0, {{C, 4}, {G, 4}, {I, 1}, {O, 1024}, {Y, 64}, {X, 64}, {KY, 64}, {KX, 64}, {DX, 1}, NO_PADS}}, /* 2^24 weights */
    {CONVOLUTION, 4, {{C, 5}, {G, 5}, {I, 1}, {O, 1024}, {Y, 64}, {X, 64}, {KY, 64}, {KX, 64}, {DX, 1}, NO_PADS}},
    {CONVOLUTION, 6, {{N, 16}, {C, 1024}, {G, 1024}, {I, 1}, {O, 1024}, {Y, 256}, {X, 1}, {SY, 1}}}, /* 2^32 outputs */
    {TRANSPOSED, 1, {{N, 0}, {SY, 0}, {C, 5}}},
    {TRANSPOSED, 2, {{SY, 0}, {C, 5}}},
    {TRANSPOSED, 3, {{C, 5}, {I, 1024}}},
    {TRANSPOSED, 4, {{C, 1024}, {G, 1}, {I, 1024}, {BY, 1024}}},
    {TRANSPOSED, 5, {{BY, 1024}, {N, 16}, {O, 1024}, {X, 4096}}},
    {TRANSPOSED, 0, {{C, 64}, {G, 1}, {I, 64}, {KY, 8}, {KX, 8}, {DX, 1}}},
    {TRANSPOSED, 4, {{C, 65}, {G, 1}, {I, 65}, {KY, 8}, {KX, 8}, {DX, 1}}},
    {TRANSPOSED, 4, {{N, 16}, {C, 1024}, {G, 1024}, {I, 1}, {Y, 4096}, {X, 4096}}},
    {TRANSPOSED, 4, {{N, 1}, {C, 97}, {G, 97}, {I, 1}, {Y, 257}, {X, 673}}},
    {TRANSPOSED, 4, {{C, 1024}, {G, 1024}, {I, 1}, {O, 1024}, {KY, 64}, {KX, 64}}},
    {TRANSPOSED, 6, {{N, 1}, {C, 1}, {G, 1}, {I, 1}, {Y, 4096}, {X, 4096}}}, /* 3 planes of 8,192 by 4,096 */
    {MAXPOOL, 1, {{N, 0}, {SY, 0}, {KX, 64}}},
    {MAXPOOL, 2, {{SY, 0}, {N, 16}, {C, 1024}, {Y, 4096}}},
    {MAXPOOL, 4, {{N, 16}, {C, 1024}, {Y, 4096}, {X, 4096}, {KY, 64}, {KX, 64}}},
    {MAXPOOL, 4, {{N, 1}, {C, 97}, {Y, 257}, {X, 673}}},
    {MAXPOOL, 5, {{N, 16}, {C, 1024}, {Y, 1}, {BY, 0}, {X, 1024}, {BX, 1024}}},
    {MAXPOOL, 6, {{N, 16}, {C, 1024}, {Y, 1}, {X, 1024}, {BX, 1024}}},               /* windows before the input: 7 */
    {MAXPOOL, 6, {{N, 1}, {C, 97}, {Y, 256}, {X, 672}, {KY, 2}, {SY, 1}, {DX, 1}}},  /* 2^24 + 1 outputs */
    {MAXPOOL, 0, {{N, 1}, {C, 1}, {Y, 4096}, {X, 4096}, {SY, 16}, {SX, 16}}},        /* 2^24 inputs */
    {CONVOLUTION, 1, {{Z, 0}, {SZ, 0}, {C, 5}}},
    {CONVOLUTION, 2, {{SZ, 0}, {C, 5}}},
    {CONVOLUTION, 3, {{C, 5}, {I, 1024}, {KZ, 64}}},
    {CONVOLUTION, 4, {{C, 1024}, {G, 1}, {I, 1024}, {Z, 1}, {BZ, 0}}},                 /* P 2 < k' 3 */
    {CONVOLUTION, 5, {{Z, 1}, {BZ, 0}, {N, 16}, {O, 1024}, {X, 4096}}},                /* 3 * 2^27 outputs for each depth */
    {CONVOLUTION, 0, {{C, 8}, {G, 1}, {I, 8}, {Z, 13}, {KZ, 8}, {KY, 8}, {KX, 8}, {DX, 1}}}, /* K 8^4 = 4,096 */
    {CONVOLUTION, 4, {{C, 8}, {G, 1}, {I, 8}, {Z, 15}, {KZ, 9}, {KY, 8}, {KX, 8}, {DX, 1}}}, /* K 4,608 */
    {CONVOLUTION, 0, {{C, 1}, {G, 1}, {I, 1}, {Z, 125}, {Y, 62}, {KZ, 64}, {KY, 64}, {KX, 1}}}, /* K 64 * 64 */
    {CONVOLUTION, 4, {{C, 1}, {G, 1}, {I, 1}, {Z, 125}, {Y, 62}, {KZ, 64}, {KY, 64}, {KX, 2}}}, /* K 8,192 */
    {CONVOLUTION, 4, {{C, 1}, {G, 1}, {I, 1}, CUBES(125, 64)}}, /* K 2^18 */
    {CONVOLUTION, 4, {{N, 16}, {C, 1024}, {G, 1024}, {I, 1}, {Z, 4096}, {Y, 4096}, {X, 4096}}}, /* 2^50 inputs */
    {CONVOLUTION, 4, {{N, 16}, {C, 1024}, {G, 1024}, {I, 1}, {Z, 4096}, {Y, 64}, {X, 1}}}, /* 2^32 inputs */
    {CONVOLUTION, 4, {{N, 1}, {C, 97}, {G, 97}, {I, 1}, {Z, 257}, {Y, 673}, {X, 1}}},  /* 2^24 + 1 inputs */
    {CONVOLUTION, 0, {{C, 4}, {G, 4}, {I, 1}, {O, 1024}, CUBES(16, 16), {DZ, 1}, {DX, 1}, NO_PADS_3}}, /* 2^24 weights */
    {CONVOLUTION, 4, {{C, 5}, {G, 5}, {I, 1}, {O, 1024}, CUBES(16, 16), {DZ, 1}, {DX, 1}, NO_PADS_3}},
    {CONVOLUTION, 6, {{N, 16}, {C, 1024}, {G, 1024}, {I, 1}, {O, 1024}, {Z, 256}, {Y, 1}, {X, 1}, {SZ, 1}}}, /* 2^32 outputs */
    {TRANSPOSED, 1, {{Z, 0}, {SZ, 0}, {C, 5}}},
    {TRANSPOSED, 2, {{SZ, 0}, {C, 5}}},
    {TRANSPOSED, 3, {{C, 5}, {I, 1024}, {KZ, 64}}},
    {TRANSPOSED, 4, {{C, 1024}, {G, 1}, {I, 1024}, {BZ, 1024}}},
    {TRANSPOSED, 5, {{BZ, 1024}, {N, 16}, {O, 1024}, {X, 4096}}},
    {TRANSPOSED, 5, {{Z, 1}, {EZ, 4}}},                                                /* 0 + 3 - 5 + 2 = 0 depths */
    {TRANSPOSED, 0, {{Z, 1}, {EZ, 3}}},
    {TRANSPOSED, 0, {{C, 8}, {G, 1}, {I, 8}, {KZ, 8}, {KY, 8}, {KX, 8}}},
    {TRANSPOSED, 4, {{C, 8}, {G, 1}, {I, 8}, {KZ, 9}, {KY, 8}, {KX, 8}}},
    {TRANSPOSED, 4, {{N, 1}, {C, 97}, {G, 97}, {I, 1}, {Z, 257}, {Y, 673}, {X, 1}}},
    {TRANSPOSED, 6, {{N, 1}, {C, 1}, {G, 1}, {I, 1}, {Z, 4096}, {Y, 64}, {X, 64}}},    /* 3 channels of 12,288 depths of 128 by 64 */
    {MAXPOOL, 1, {{Z, 0}, {SZ, 0}, {KX, 64}}},
    {MAXPOOL, 2, {{SZ, 0}, {N, 16}, {C, 1024}, {Z, 4096}}},
    {MAXPOOL, 4, {{N, 16}, {C, 1024}, {Z, 4096}, {KZ, 64}, {KY, 64}}},
    {MAXPOOL, 4, {{N, 1}, {C, 97}, {Z, 257}, {Y, 673}, {X, 1}}},
    {MAXPOOL, 5, {{N, 16}, {C, 1024}, {Z, 1}, {BZ, 0}, {Y, 1}, {X, 1024}, {BX, 1024}}},
    {MAXPOOL, 6, {{N, 16}, {C, 1024}, {Z, 1}, {Y, 1}, {X, 1024}, {BX, 1024}}},         /* windows before the input: 7 */
    {MAXPOOL, 6, {{N, 1}, {C, 97}, {Z, 256}, {Y, 672}, {X, 1}, {KY, 2}, {SZ, 1}, {SY, 1}, {DZ, 1}}}, /* 2^24 + 1 outputs */
    {MAXPOOL, 0, {{N, 1}, {C, 1}, {Z, 4096}, {Y, 64}, {X, 64}, {SZ, 16}, {SY, 16}, {SX, 16}}}, /* 2^24 inputs */
    {MAXPOOL, 0, {CUBES(62, 64), {DZ, 1}, {DX, 1}}}, /* 2^18 taps: K is of convolutions alone */
};

static void try_combined(void) {
    for (size_t i = 0; i < COUNT(COMBINED); i++) {
        const setting *set = COMBINED[i].set, *end = set;
        int axes = 2;
        for (; end < set + COUNT(COMBINED[i].set) && end->field != NONE; end++)
            axes = axis_of(end->field) == 0 ? 3 : axes;
        layer l = base(COMBINED[i].op, axes);
        about = say("combined %zu", i);
        for (const setting *s = set; s < end; s++)
            l.field[s->field] = s->value;
        try_layer(&l, COMBINED[i].number);
    }
}

/* A layer in which all is 1 or a default. */
static layer plain(enum op op, int axes) {
    layer l = {op, axes, 0, 8, "explicit", "floor", {0}};
    for (int f = N; f <= DX; f++)
        l.field[f] = 1;
    return l;
}

/* One tap, no pads: each channel of the output has as many elements as the input. */
static const struct {
    uint32_t number;
    int axes;
    uint64_t channels, z, y, x;
} CHANNELS[] = {
    {0, 2, 1, 1, 4096, 4096}, {0, 2, 96, 1, 257, 673}, {6, 2, 97, 1, 257, 673}, {6, 2, 2, 1, 4096, 4096}, {6, 2, 1024, 1, 4096, 1024},
    {0, 3, 1, 256, 256, 256}, {0, 3, 96, 257, 673, 1}, {6, 3, 97, 257, 673, 1}, {6, 3, 2, 256, 256, 256}, {6, 3, 1024, 4096, 64, 16},
};

static void try_channels_of_outputs(enum op op) {
    for (size_t i = 0; i < COUNT(CHANNELS); i++) {
        layer l = plain(op, CHANNELS[i].axes);
        l.field[O] = CHANNELS[i].channels;
        l.field[Z] = CHANNELS[i].z;
        l.field[Y] = CHANNELS[i].y;
        l.field[X] = CHANNELS[i].x;
        about = say("%s, one tap, %" PRIu64 " channels of %" PRIu64 " by %" PRIu64 " by %" PRIu64, OP_NAMES[op], CHANNELS[i].channels, CHANNELS[i].z,
                    CHANNELS[i].y, CHANNELS[i].x);
        try_layer(&l, CHANNELS[i].number);
    }
}

/* ---- roundings, the axis, windows, another operator's sheet */

/* Every rounding of each version; `which` is its place in the tables below. */
static const struct {
    int version, which;
    const char *rounding;
} ROUNDINGS[] = {{8, 0, "floor"}, {8, 1, "ceil"}, {14, 0, "floor"}, {14, 1, "ceil"}, {14, 2, "ceil_torch"}};

static layer rounded(size_t r, int axes) {
    layer l = base(MAXPOOL, axes);
    l.version = ROUNDINGS[r].version;
    l.rounding = ROUNDINGS[r].rounding;
    return l;
}

/* Document 01: axis runs from -R to R - 1, R being the number of axes plus 2; the layer that it belongs to is accepted otherwise. */
static void try_axis(int axes) {
    for (int axis = -9; axis <= 9; axis++)
        for (size_t r = 0; r < COUNT(ROUNDINGS); r++) {
            layer l = rounded(r, axes);
            l.axis = axis;
            about = say("%s, axis %d", layer_words(&l).text, axis);
            try_layer(&l, axis < -(axes + 2) || axis > axes + 1 ? 2 : 0);
        }
}

/* Max pooling: input, kernel, stride, dilation and pads of one axis, and with floor, with ceil and with ceil_torch the number and the size. Valid and the same
 * modes look at no pads. */
static const struct {
    const char *auto_pad;
    uint64_t in, k, s, d, begin, end;
    uint32_t number[3];
    uint64_t out[3];
} WINDOWS[] = {
    {"valid", 4, 1, 4, 1, 1, 1, {0, 7, 0}, {1, 2, 1}},                   /* the second window starts at 4 */
    {"valid", 6, 3, 2, 1, 1, 1, {0, 0, 0}, {2, 3, 3}},                   /* the last window holds two elements */
    {"valid", 7, 2, 2, 3, 1, 1, {0, 0, 0}, {2, 3, 3}},                   /* the last window holds its first tap alone */
    {"valid", 5, 3, 2, 1, 1, 1, {0, 0, 0}, {2, 2, 2}},
    {"valid", 2, 2, 16, 1, 1, 1, {0, 0, 0}, {1, 1, 1}},                  /* in = k' */
    {"valid", 2, 3, 1, 1, 1, 1, {5, 5, 5}, {0}},                         /* in < k' */
    {"valid", 3, 2, 1, 3, 1, 1, {5, 5, 5}, {0}},
    {"valid", 4096, 64, 16, 16, 1, 1, {0, 0, 0}, {193, 194, 194}},       /* the last window starts at 3,088 */
    {"valid", 4096, 1, 16, 1, 1, 1, {0, 7, 0}, {256, 257, 256}},         /* the last window starts at 4,096 */
    {"explicit", 2, 1, 3, 1, 0, 0, {0, 7, 0}, {1, 2, 1}},                /* bench case: the second window starts at 3 */
    {"explicit", 3, 2, 2, 1, 0, 0, {0, 0, 0}, {1, 2, 2}},                /* bench case: the second window starts at 2, the last element */
    {"explicit", 3, 2, 2, 1, 1, 1, {0, 7, 0}, {2, 3, 2}},                /* bench case: the third window starts at 3, the input's end */
    {"explicit", 4, 1, 1, 1, 0, 9, {7, 7, 7}, {13, 13, 12}},             /* bench case: less one, once only */
    {"explicit", 4, 2, 3, 1, 1, 1, {0, 7, 0}, {2, 3, 2}},                /* the third window starts at 5, past the end */
    {"explicit", 3, 3, 2, 1, 2, 2, {0, 0, 0}, {3, 3, 3}},                /* the third window starts at 2: the pad at the begin counts */
    {"explicit", 2, 1, 2, 1, 0, 1, {7, 7, 0}, {2, 2, 1}},                /* less than floor: the second window starts at 2 */
    {"explicit", 2, 1, 1, 1, 0, 1, {7, 7, 0}, {3, 3, 2}},                /* one window past the end */
    {"explicit", 2, 1, 1, 1, 0, 2, {7, 7, 7}, {4, 4, 3}},                /* two windows past the end */
    {"explicit", 3, 2, 4, 2, 0, 4, {7, 7, 0}, {2, 2, 1}},                /* k' 3; the second window starts at 4 */
    {"explicit", 3, 1, 1, 1, 1, 1, {7, 7, 7}, {5, 5, 4}},                /* the first window is empty too */
    {"explicit", 1, 1, 16, 1, 0, 0, {0, 0, 0}, {1, 1, 1}},               /* one window stays */
    {"explicit", 1, 2, 16, 1, 1, 15, {0, 7, 0}, {1, 2, 1}},              /* the second window starts at 15 */
    {"explicit", 2, 3, 1, 1, 0, 0, {5, 5, 5}, {0}},                      /* P 2 < k' 3 */
    {"explicit", 4096, 64, 16, 16, 1008, 1008, {0, 7, 0}, {319, 320, 319}}, /* k' 1,009; the last window starts at 4,096 */
    {"explicit", 4096, 64, 16, 16, 1008, 1024, {7, 7, 7}, {320, 321, 320}}, /* the last two start at 4,096 and 4,112 */
    {"same_upper", 4, 1, 4, 1, 1, 1, {0, 0, 0}, {1, 1, 1}},              /* explicit ceil has 2 */
    {"same_lower", 4, 1, 4, 1, 1, 1, {0, 0, 0}, {1, 1, 1}},
    {"same_upper", 5, 2, 4, 1, 1, 1, {0, 0, 0}, {2, 2, 2}},
};

static void try_windows(enum field along, int axes) {
    for (size_t i = 0; i < COUNT(WINDOWS); i++)
        for (size_t r = 0; r < COUNT(ROUNDINGS); r++) {
            layer l = rounded(r, axes);
            uint64_t *f = l.field + axis_of(along);
            uint32_t number = WINDOWS[i].number[ROUNDINGS[r].which];
            l.auto_pad = WINDOWS[i].auto_pad;
            f[Z] = WINDOWS[i].in;
            f[KZ] = WINDOWS[i].k;
            f[SZ] = WINDOWS[i].s;
            f[DZ] = WINDOWS[i].d;
            f[BZ] = WINDOWS[i].begin;
            f[EZ] = WINDOWS[i].end;
            about = say("%s, %s, windows %zu", layer_words(&l).text, FIELD[along].name, i);
            if (number != 5)
                check("size_along", say("%" PRIu64, WINDOWS[i].out[ROUNDINGS[r].which]), say("%" PRIu64, size_along(&l, axis_of(along))));
            try_layer(&l, number);
        }
}

/* 2^14 channels of 1,024 elements and a pad at the end: ceil has 1,025 windows in each, so 6, and ceil_torch 2^24 outputs in all. */
static void try_most_outputs(void) {
    char text[KOZA_SHEET_MAX * 2];
    for (int torch = 0; torch < 2; torch++) {
        layer l = plain(MAXPOOL, 1);
        l.version = 14;
        l.rounding = torch ? "ceil_torch" : "ceil";
        l.field[N] = 16, l.field[C] = l.field[X] = 1024, l.field[EX] = 1;
        about = say("%s, 2^24 inputs", layer_words(&l).text);
        set_sheet(text, write_layer(text, &l));
        call_shape(torch ? (koza_shape_answer){0, 0, 1, 16, 1024, 1, 1, 1024} : (koza_shape_answer){.number = 6});
        call_lengths(torch ? (koza_lengths_answer){0, 0, 1 << 24, 0, 1 << 24} : (koza_lengths_answer){.number = 6});
    }
}

/* The operator that is called decides what is used: a sheet of another is 2, and 1 where a size that both use is outside. */
static void try_other_operators(layer l) {
    char text[KOZA_SHEET_MAX * 2];
    for (uint32_t number = 2; number >= 1; number--) {
        l.field[X] = number == 1 ? 4097 : l.field[X];
        set_sheet(text, write_layer(text, &l));
        for (int op = 0; op < OPS; op++) {
            about = say("%s on a sheet of %s, X %" PRIu64, OP_NAMES[op], layer_words(&l).text, l.field[X]);
            if (op != (int)l.op)
                call_operator((enum op)op, (lengths){5, 4, 3, op == MAXPOOL ? 3 : 0}, NULL, 0, (koza_answer){.number = number});
        }
    }
}

/* ---- lengths and elements: numbers 8 and 9 */

enum { QUIET_NAN = 0x7FC00000 };

static size_t *length_of(lengths *n, int b) {
    return b == INPUT ? &n->input : b == KERNEL ? &n->kernel : b == OUTPUT ? &n->output : &n->indices;
}

/* Each buffer none, one short, one long; the input holds a NaN, which is looked at later. */
static void try_lengths(const layer *l) {
    char text[KOZA_SHEET_MAX * 2];
    set_sheet(text, write_layer(text, l));
    for (int b = INPUT; b < BUFFERS; b++)
        for (int change = -2; change <= 1; change++) {
            lengths n = lend_all(l->op, lengths_of(l));
            size_t *length = length_of(&n, b), right = *length;
            if (right == 0 || change == 0)
                continue; /* a buffer that the operator has not, or the right length */
            *length = change == -2 ? 0 : right + (size_t)change;
            about = say("%s, %s of %zu elements in place of %zu", layer_words(l).text, BUFFER_NAMES[b], *length, right);
            element nan = {0, 0, (uint32_t)QUIET_NAN};
            call_operator(l->op, n, &nan, n.input > 0, (koza_answer){.number = 8});
        }
}

/* A buffer 2^32 elements too long; it is not looked at. */
static void try_long_buffer(enum function f, int b) {
    char text[KOZA_SHEET_MAX * 2];
    layer l = base(FUNCTION[f].op, 2);
    lengths n = lend_all(l.op, lengths_of(&l));
    size_t *length = length_of(&n, b), size = b == INDICES ? sizeof(int64_t) : sizeof(float);
    if (*length == 0)
        return;
    *length += LARGEST + 1;
    about = say("%s, %s of %zu elements", OP_NAMES[l.op], BUFFER_NAMES[b], *length);
    void *memory = reserve(*length * size, PROT_READ | PROT_WRITE);
    if (!memory) {
        not_tried++;
        return;
    }
    set_sheet(text, write_layer(text, &l));
    float *input = lend(INPUT, lengths_of(&l).input * sizeof *input), *kernel = lend(KERNEL, lengths_of(&l).kernel * sizeof *kernel);
    float *output = lend(OUTPUT, lengths_of(&l).output * sizeof *output);
    int64_t *indices = lend(INDICES, lengths_of(&l).output * sizeof *indices);
    for (int i = INPUT; i < BUFFERS; i++)
        remember(i);
    koza_answer a = call(f, b == INPUT ? memory : input, b == KERNEL ? memory : kernel, b == OUTPUT ? memory : output,
                         b == INDICES ? memory : indices, n);
    compare(FUNCTION[f].name, answer_words((koza_answer){.number = 8}, "memory kept"), answer_words(a, memory_after(8).text));
    munmap(memory, *length * size);
}

/* Floats by their bits; 2^40 is the largest magnitude that is taken. */
static const struct {
    const char *what;
    uint32_t bits, bad;
} ELEMENTS[] = {
    {"2^40", 0x53800000, 0},
    {"-2^40", 0xD3800000, 0},
    {"-0", 0x80000000, 0},
    {"the least float above 0", 0x00000001, 0},
    {"the next above 2^40", 0x53800001, 1},
    {"the next below -2^40", 0xD3800001, 1},
    {"the largest float", 0x7F7FFFFF, 1},
    {"infinity", 0x7F800000, 1},
    {"-infinity", 0xFF800000, 1},
    {"NaN", QUIET_NAN, 1},
    {"a signalling NaN", 0x7F800001, 1},
    {"a NaN with all bits set", 0xFFFFFFFF, 1},
};

/* Where the elements are put: in the input and the kernel, first, last or none. The first bad one is told, of the input before the kernel, and how many are
 * bad in that tensor. */
static void try_element(const layer *l, size_t e, int input_first, int input_last, int kernel_first, int kernel_last) {
    koza_lengths_answer n = lengths_of(l);
    element put[4], *end = put;
    if (input_first)
        *end++ = (element){0, 0, ELEMENTS[e].bits};
    if (input_last)
        *end++ = (element){0, n.input - 1, ELEMENTS[e].bits};
    if (kernel_first && n.kernel > 0)
        *end++ = (element){1, 0, ELEMENTS[e].bits};
    if (kernel_last && n.kernel > 0)
        *end++ = (element){1, n.kernel - 1, ELEMENTS[e].bits};
    koza_answer expected = {.number = 0};
    if (ELEMENTS[e].bad && end > put)
        expected = (koza_answer){.number = 9, .tensor = put[0].tensor, .place = put[0].place,
                                 .bad = put[0].tensor == 0 ? (size_t)(input_first + input_last) : (size_t)(kernel_first + kernel_last)};
    about = say("%s, %s as input's first %d, last %d, kernel's first %d, last %d", layer_words(l).text, ELEMENTS[e].what, input_first, input_last,
                kernel_first, kernel_last);
    call_operator(l->op, lend_all(l->op, n), put, (size_t)(end - put), expected);
}

static void try_elements(const layer *l) {
    char text[KOZA_SHEET_MAX * 2];
    set_sheet(text, write_layer(text, l));
    for (size_t e = 0; e < COUNT(ELEMENTS); e++)
        for (int where = 0; where < 16; where++)
            try_element(l, e, where & 1, where >> 1 & 1, where >> 2 & 1, where >> 3 & 1);
}

/* So many bad elements at the end of each tensor. Those of the input are counted; those of the kernel where the input has none. */
static void try_count(const layer *l, size_t of_input, size_t of_kernel) {
    koza_lengths_answer n = lengths_of(l);
    element put[2048];
    size_t puts = 0;
    for (size_t k = 1; k <= of_input; k++)
        put[puts++] = (element){0, n.input - k, QUIET_NAN};
    for (size_t k = 1; k <= of_kernel; k++)
        put[puts++] = (element){1, n.kernel - k, QUIET_NAN};
    koza_answer expected = {.number = 0};
    if (of_input > 0)
        expected = (koza_answer){.number = 9, .tensor = 0, .place = n.input - of_input, .bad = of_input};
    else if (of_kernel > 0)
        expected = (koza_answer){.number = 9, .tensor = 1, .place = n.kernel - of_kernel, .bad = of_kernel};
    about = say("%s, the last %zu elements of the input bad, the last %zu of the kernel", layer_words(l).text, of_input, of_kernel);
    call_operator(l->op, lend_all(l->op, n), put, puts, expected);
}

/* None to all of the input's elements bad, with a kernel of good ones and of bad ones; then the same of the kernel's. */
static void try_counts(const layer *l) {
    char text[KOZA_SHEET_MAX * 2];
    koza_lengths_answer n = lengths_of(l);
    set_sheet(text, write_layer(text, l));
    for (size_t bad = 0; bad <= n.input; bad++) {
        try_count(l, bad, 0);
        try_count(l, bad, n.kernel);
    }
    for (size_t bad = 0; bad <= n.kernel; bad++) {
        try_count(l, 0, bad);
        try_count(l, 1, bad);
    }
}

/* ---- what accepted calls leave: document 01's bench cases with one axis, the index of the first of two equal elements, a window past the input's end; with
 * three axes the order of taps, in sums that round otherwise in another order, and in windows; halved sums beside running ones */

/* Input and kernel have their sizes by Z, Y, X; the stride is that of each axis. Max pooling is tried at both versions, ceil_torch at 14. */
static const struct {
    enum function function;
    const char *auto_pad, *rounding;
    int axes;
    uint64_t in[3], k[3], stride;
    float input[8], kernel[8], output[8];
    int64_t indices[8];
} RESULTS[] = {
#define ONES {1, 1, 1, 1, 1, 1, 1, 1}
    {TRANSPOSE, "explicit", "floor", 1, {1, 1, 2}, {1, 1, 3}, 2, {1, 2}, {1, 1, 1}, {1, 1, 3, 2, 2}, {0}},
    {RUNNING, "explicit", "floor", 1, {1, 1, 1}, {1, 1, 1}, 1, {-0.0f}, {1}, {0}, {0}},
    {RUNNING, "explicit", "floor", 1, {1, 1, 2}, {1, 1, 2}, 1, {4096, 1}, {4096, 1}, {16777216}, {0}},
    {POOL, "valid", "floor", 1, {1, 1, 7}, {1, 1, 3}, 1, {-1, 2, 3, 5, -7, 9, 1}, {0}, {3, 5, 5, 9, 9}, {2, 3, 3, 5, 5}},
    {POOL, "valid", "floor", 1, {1, 1, 4}, {1, 1, 2}, 2, {-0.0f, 0, 0, -0.0f}, {0}, {-0.0f, 0}, {0, 2}},
    {POOL, "valid", "floor", 1, {1, 1, 6}, {1, 1, 3}, 2, {3, -1, 2, 5, -4, -2}, {0}, {3, 5}, {0, 3}},
    {POOL, "valid", "ceil", 1, {1, 1, 6}, {1, 1, 3}, 2, {3, -1, 2, 5, -4, -2}, {0}, {3, 5, -2}, {0, 3, 5}},
    {RUNNING, "explicit", "floor", 3, {2, 2, 2}, {2, 2, 2}, 1, {0x1p24f, -0x1p24f, 1, 0, 1, 0, 1, 0}, ONES, {3}, {0}}, /* 0 or 2 unless kx rises fastest */
    {RUNNING, "explicit", "floor", 3, {2, 2, 2}, {2, 2, 2}, 1, {0x1p24f, 0, -0x1p24f, 0, 1, 1, 0, 0}, ONES, {2}, {0}}, /* 0 if ky rises slowest */
    {RUNNING, "explicit", "floor", 3, {3, 1, 2}, {2, 1, 1}, 1, {1, 2, 3, 4, 5, 6}, {1, 10}, {31, 42, 53, 64}, {0}},
    {HALVED, "explicit", "floor", 1, {1, 1, 1}, {1, 1, 1}, 1, {-0.0f}, {1}, {0}, {0}},
    {HALVED, "explicit", "floor", 1, {1, 1, 2}, {1, 1, 2}, 1, {4096, 1}, {4096, 1}, {16777216}, {0}},
    {RUNNING, "explicit", "floor", 1, {1, 1, 3}, {1, 1, 3}, 1, {0x1p24f, 1, 1}, ONES, {16777216}, {0}},
    {HALVED, "explicit", "floor", 1, {1, 1, 3}, {1, 1, 3}, 1, {0x1p24f, 1, 1}, ONES, {16777216}, {0}}, /* 16777218 with the smaller half first */
    {RUNNING, "explicit", "floor", 1, {1, 1, 4}, {1, 1, 4}, 1, {0x1p24f, 1, 1, 1}, ONES, {16777216}, {0}},
    {HALVED, "explicit", "floor", 1, {1, 1, 4}, {1, 1, 4}, 1, {0x1p24f, 1, 1, 1}, ONES, {16777218}, {0}},
    {RUNNING, "explicit", "floor", 1, {1, 1, 5}, {1, 1, 5}, 1, {0x1p24f, 1, 1, 1, 1}, ONES, {16777216}, {0}},
    {HALVED, "explicit", "floor", 1, {1, 1, 5}, {1, 1, 5}, 1, {0x1p24f, 1, 1, 1, 1}, ONES, {16777218}, {0}}, /* 16777220 with the smaller half first */
    {RUNNING, "same_upper", "floor", 1, {1, 1, 4}, {1, 1, 4}, 2, {0x1p24f, 1, 1, 1}, ONES, {16777216, 3}, {0}}, /* a tap outside at each end */
    {HALVED, "same_upper", "floor", 1, {1, 1, 4}, {1, 1, 4}, 2, {0x1p24f, 1, 1, 1}, ONES, {16777218, 3}, {0}},
    {RUNNING, "explicit", "floor", 3, {2, 2, 2}, {2, 2, 2}, 1, {-0x1p24f, 0, 0, 1, 0x1p24f, 1, 0, 1}, ONES, {3}, {0}},
    {HALVED, "explicit", "floor", 3, {2, 2, 2}, {2, 2, 2}, 1, {-0x1p24f, 0, 0, 1, 0x1p24f, 1, 0, 1}, ONES, {1}, {0}}, /* 2 or 3 if the axes rise otherwise */
    {HALVED, "explicit", "floor", 3, {3, 1, 2}, {2, 1, 1}, 1, {1, 2, 3, 4, 5, 6}, {1, 10}, {31, 42, 53, 64}, {0}},
    {TRANSPOSE, "explicit", "floor", 3, {2, 1, 1}, {2, 1, 1}, 1, {1, 2}, {3, 4}, {3, 10, 8}, {0}},
    {TRANSPOSE, "explicit", "floor", 3, {2, 1, 1}, {1, 1, 2}, 2, {5, 7}, {1, 2}, {5, 10, 0, 0, 7, 14}, {0}}, /* no tap reaches depth 1 */
    {POOL, "valid", "floor", 3, {2, 2, 2}, {2, 2, 2}, 1, {1, 5, 5, 2, 5, 0, 0, 0}, {0}, {5}, {1}},
    {POOL, "valid", "floor", 3, {2, 2, 2}, {2, 2, 2}, 1, {0, 0, 5, 0, 5, 0, 0, 0}, {0}, {5}, {2}},
    {POOL, "valid", "floor", 3, {2, 1, 2}, {2, 1, 1}, 1, {-1, -4, -3, -2}, {0}, {-1, -2}, {0, 3}},
    {POOL, "valid", "ceil", 3, {3, 1, 1}, {2, 1, 1}, 2, {4, -1, -3}, {0}, {4, -3}, {0, 2}}, /* the last window holds depth 2 alone */
    {POOL, "valid", "ceil_torch", 1, {1, 1, 6}, {1, 1, 3}, 2, {3, -1, 2, 5, -4, -2}, {0}, {3, 5, -2}, {0, 3, 5}},
    {POOL, "valid", "ceil_torch", 1, {1, 1, 6}, {1, 1, 1}, 2, {3, -1, 2, 5, -4, -2}, {0}, {3, 2, -4}, {0, 2, 4}}, /* a fourth would start at 6 */
    {POOL, "explicit", "ceil_torch", 2, {1, 2, 4}, {1, 1, 1}, 2, {8, 7, 6, 5, 4, 3, 2, 1}, {0}, {8, 6}, {0, 2}}, /* a row and a column less */
    {POOL, "explicit", "ceil_torch", 3, {4, 1, 1}, {1, 1, 1}, 2, {4, -1, -3, 9}, {0}, {4, -3}, {0, 2}},
};

static void try_result(size_t i, int version) {
    char text[KOZA_SHEET_MAX * 2];
    enum function f = RESULTS[i].function;
    layer l = plain(FUNCTION[f].op, RESULTS[i].axes);
    l.version = version;
    l.auto_pad = RESULTS[i].auto_pad;
    l.rounding = RESULTS[i].rounding;
    for (int axis = 3 - l.axes; axis < 3; axis++) {
        l.field[Z + axis] = RESULTS[i].in[axis];
        l.field[KZ + axis] = RESULTS[i].k[axis];
        l.field[SZ + axis] = RESULTS[i].stride;
    }
    set_sheet(text, write_layer(text, &l));
    about = say("result %zu, version %d", i, version);
    element put[16];
    size_t inputs = lengths_of(&l).input, kernels = lengths_of(&l).kernel, outputs = lengths_of(&l).output;
    for (size_t k = 0; k < inputs + kernels; k++) {
        put[k] = (element){k >= inputs, k < inputs ? k : k - inputs, 0};
        memcpy(&put[k].bits, k < inputs ? &RESULTS[i].input[k] : &RESULTS[i].kernel[k - inputs], sizeof put[k].bits);
    }
    call_function(f, lend_all(l.op, lengths_of(&l)), put, inputs + kernels, (koza_answer){0});
    const unsigned char *output = lent[OUTPUT].end - lent[OUTPUT].bytes, *indices = lent[INDICES].end - lent[INDICES].bytes;
    int same = memcmp(output, RESULTS[i].output, outputs * sizeof(float)) == 0;
    same = same && (l.op != MAXPOOL || memcmp(indices, RESULTS[i].indices, outputs * sizeof(int64_t)) == 0);
    check(FUNCTION[f].name, say("the outputs of the table"), say(same ? "the outputs of the table" : "other outputs"));
}

static void try_results(void) {
    for (size_t i = 0; i < COUNT(RESULTS); i++) {
        if (strcmp(RESULTS[i].rounding, "ceil_torch") != 0)
            try_result(i, 8);
        if (RESULTS[i].function == POOL)
            try_result(i, 14);
    }
}

/* ---- sheets that the reader refuses */

/* The number and its line; the line of the sheet of base(op, axes) that each text takes the place of: the line after the last is what follows the sheet, 0 the
 * whole of it. '@' stands for the byte 0. */
typedef struct {
    uint32_t number, at;
    enum op op;
    uint32_t line;
    const char *texts[20];
} edited;

/* Two axes. */
static const edited SHEETS[] = {
    {20, 1, MAXPOOL, 0, {"", "\n", "@", "op=maxpool"}},
    {20, 2, MAXPOOL, 0, {"op=maxpool\n", "op=maxpool\n\n"}},
    {20, 1, MAXPOOL, 1, {"Op=maxpool", " op=maxpool", "op =maxpool", "op", "", "=maxpool", "\xEF\xBB\xBFop=maxpool"}},
    {20, 2, MAXPOOL, 1, {"op=maxpool\nop=maxpool", "op=maxpool\n"}},
    {22, 1, MAXPOOL, 1, {"op=maxpool\r", "op=maxpool ", "op= maxpool", "op=maxpools", "op=maxpoo", "op=MaxPool", "op=maxpool@", "op="}},
    {22, 1, MAXPOOL, 1, {"op=pool\naxes=9"}}, /* the first bad line */
    {21, 2, MAXPOOL, 1, {"op=maxpool\naxes=9\ninput=x"}},
    {20, 1, MAXPOOL, 1, {"\nversion=14\nop=maxpool", " version=14\nop=maxpool", "Version=14\nop=maxpool", "version\nop=maxpool"}},
    {21, 1, MAXPOOL, 1, {"version=8\nop=maxpool", "version=14op=maxpool", "version=op=maxpool"}},
    {20, 2, MAXPOOL, 1, {"op=maxpool\nversion=14", "version=14\nversion=14\nop=maxpool", "version=14\n\nop=maxpool", "version=14"}},
    {21, 1, CONVOLUTION, 1, {"version=8\nop=convolution", "version=1\nop=convolution"}},
    {23, 2, CONVOLUTION, 1, {"version=14\nop=convolution", "version=14\nop=convolution\naxes=9"}},
    {23, 2, TRANSPOSED, 1, {"version=14\nop=transposed"}},
    {22, 2, TRANSPOSED, 1, {"version=14\nop=transpose"}}, /* before 23 */
    {20, 2, MAXPOOL, 2, {"axis=2", "axes:2", "Axes=2", ""}},
    {21, 2, MAXPOOL, 2, {"axes=0", "axes=4", "axes=4294967295", "axes=4294967298", "axes=02", "axes=+2", "axes=-2", "axes=", "axes=2 ", "axes= 2",
                         "axes=2\r", "axes=2@", "axes=2,", "axes=2,2", "axes=two"}},
    {21, 3, MAXPOOL, 2, {"axes=1", "axes=3"}}, /* the lists are those of two axes */
    {20, 3, MAXPOOL, 3, {"inputs=1,2,3,3", "input:1,2,3,3"}},
    {21, 3, MAXPOOL, 3, {"input=1,2,3", "input=1,2,3,3,1", "input=1,2,3,3,", "input=,1,2,3", "input=1,,3,3", "input=1,2,3,03", "input=00,2,3,3",
                         "input=", "input=1,2,3,3 ", "input=1, 2,3,3", "input=1;2;3;3", "input=-1,2,3,3", "input=1,2,3,3\r", "input=1,2,3,3.0",
                         "input=1,2,3,0x3", "input=1,2@,3,3", "input=1,2,3,99999999999999999999", "input=1,2,3,18446744073709551617"}}, /* the last is 1 modulo 2^64 */
    {21, 4, MAXPOOL, 3, {"input=0,0,0,0\nkernel=0"}}, /* before 1 */
    {21, 4, MAXPOOL, 4, {"kernel=1,1,1,2,2", "kernel=2", "kernel=2,2,2"}},
    {21, 4, CONVOLUTION, 4, {"kernel=2,2", "kernel=2,2,2,2", "kernel=2,2,2,2,2,2"}},
    {21, 4, TRANSPOSED, 4, {"kernel=2,2", "kernel=2,2,2,2", "kernel=2,2,2,2,2,2"}},
    {20, 5, MAXPOOL, 5, {"stride=1,1", "dilations=1,1"}},
    {21, 5, MAXPOOL, 5, {"strides=1", "strides=1,1,1"}},
    {20, 6, MAXPOOL, 6, {"", "dilation=1,1"}},
    {21, 6, MAXPOOL, 6, {"dilations=1", "dilations=1,1,1"}},
    {20, 7, MAXPOOL, 7, {"auto-pad=valid", "pads_begin=0,0"}},
    {22, 7, MAXPOOL, 7, {"auto_pad=", "auto_pad=EXPLICIT", "auto_pad=same", "auto_pad=0", "auto_pad=explicit\r", "auto_pad=valid ", "auto_pad=notset"}},
    {20, 8, MAXPOOL, 8, {"pads_end=0,0", "pads=0,0"}},
    {21, 8, MAXPOOL, 8, {"pads_begin=", "pads_begin=0", "pads_begin=0,-1", "pads_begin=0,0,0"}},
    {20, 9, MAXPOOL, 9, {"pads_begin=0,0"}},
    {21, 9, MAXPOOL, 9, {"pads_end=0", "pads_end=0,-0", "pads_end=0,0,0"}},
    {21, 10, MAXPOOL, 10, {"output_padding=0", "output_padding=x,1", "output_padding=0,0,0"}},
    {23, 10, MAXPOOL, 10, {"output_padding=1,0", "output_padding=0,1"}},
    {21, 10, CONVOLUTION, 10, {"output_padding=1,4294967296", "output_padding=1"}}, /* before 23 */
    {23, 10, CONVOLUTION, 10, {"output_padding=0,15", "output_padding=4294967295,0"}},
    {20, 11, MAXPOOL, 11, {"Rounding=floor"}},
    {22, 11, MAXPOOL, 11, {"rounding=", "rounding=floor ", "rounding=FLOOR", "rounding=ceil_torch", "rounding=ceil_"}}, /* version 8 has no ceil_torch */
    {22, 11, CONVOLUTION, 11, {"rounding=round", "rounding=ceil_torch"}}, /* before 23 */
    {22, 11, TRANSPOSED, 11, {"rounding=ceil_torch"}},
    {23, 11, CONVOLUTION, 11, {"rounding=ceil"}},
    {23, 11, TRANSPOSED, 11, {"rounding=ceil"}},
    {20, 12, MAXPOOL, 12, {"axes=2", ""}},
    {21, 12, MAXPOOL, 12, {"axis=10", "axis=-10", "axis=-0", "axis=", "axis=-", "axis=00", "axis=+1", "axis=2 ", "axis=2@", "axis=2\r", "axis=x"}},
    {21, 12, CONVOLUTION, 12, {"axis=10", "axis=-0"}},
    {23, 12, CONVOLUTION, 12, {"axis=1", "axis=-1"}},
    {23, 12, TRANSPOSED, 12, {"axis=9", "axis=-9"}},
    {20, 13, MAXPOOL, 13, {"\n", "@", " ", "axis=0\n", "\r\n", "version=14\n"}},
    {20, 13, CONVOLUTION, 13, {"\n", "@"}},
    {20, 13, TRANSPOSED, 13, {"\n", "op=transposed\n"}},
};

/* Three axes: mostly lists of another length. */
static const edited SHEETS_3[] = {
    {21, 2, MAXPOOL, 2, {"axes=0", "axes=4", "axes=03", "axes=3 ", "axes=3,", "axes=3,3", "axes=-3"}},
    {21, 3, MAXPOOL, 2, {"axes=1", "axes=2"}},
    {21, 3, MAXPOOL, 3, {"input=1,2,3,3", "input=1,2,3,3,3,3", "input=1,2,3", "input=1,2,3,3,", "input=,1,2,3,3", "input=1,2,,3,3", "input=1,2,03,3,3",
                         "input=1,2,-3,3,3", "input=1,2,4294967296,3,3"}},
    {21, 4, MAXPOOL, 4, {"kernel=2", "kernel=2,2", "kernel=2,2,2,2", "kernel=1,1,1,2,2,2"}},
    {21, 4, CONVOLUTION, 4, {"kernel=2,2,2", "kernel=2,2,2,2,2", "kernel=2,2,2,2,2,2,2"}},
    {21, 4, TRANSPOSED, 4, {"kernel=2,2,2", "kernel=2,2,2,2,2", "kernel=2,2,2,2,2,2,2"}},
    {21, 5, MAXPOOL, 5, {"strides=1", "strides=1,1", "strides=1,1,1,1"}},
    {21, 6, MAXPOOL, 6, {"dilations=1", "dilations=1,1", "dilations=1,1,1,1"}},
    {21, 8, MAXPOOL, 8, {"pads_begin=0", "pads_begin=0,0", "pads_begin=0,0,0,0"}},
    {21, 9, MAXPOOL, 9, {"pads_end=0", "pads_end=0,0", "pads_end=0,0,0,0"}},
    {21, 10, MAXPOOL, 10, {"output_padding=0,0", "output_padding=0,0,0,0"}},
    {23, 10, MAXPOOL, 10, {"output_padding=1,0,0", "output_padding=0,1,0", "output_padding=0,0,1"}},
    {21, 10, CONVOLUTION, 10, {"output_padding=1,0", "output_padding=1,0,4294967296"}}, /* before 23 */
    {23, 10, CONVOLUTION, 10, {"output_padding=15,0,0", "output_padding=0,0,4294967295"}},
    {21, 10, TRANSPOSED, 10, {"output_padding=1,1", "output_padding=1,1,1,1"}},
    {23, 12, CONVOLUTION, 12, {"axis=4", "axis=-5"}},
    {20, 13, MAXPOOL, 13, {"\n"}},
};

/* Version 14, two axes: every line is one later. */
static const edited SHEETS_14[] = {
    {20, 1, MAXPOOL, 0, {"version", "version=", "version=1", "version=14", "version=14op=maxpool", "version=15"}},
    {20, 2, MAXPOOL, 0, {"version=14\n", "version=14\n\n", "version=14\nop=maxpool", "version=14\nversion=14\n"}},
    {20, 3, MAXPOOL, 0, {"version=14\nop=maxpool\n"}},
    {20, 1, MAXPOOL, 1, {"Version=14", "VERSION=14", "version:14", "version 14", "version", " version=14", "version =14", "versions=14", "", "=14", "14",
                         "\xEF\xBB\xBFversion=14"}},
    {21, 1, MAXPOOL, 1, {"version=8", "version=15", "version=13", "version=0", "version=1", "version=4", "version=140", "version=114", "version=014",
                         "version=4294967310", "version=18446744073709551630"}}, /* the last two are 14 modulo 2^32 and 2^64 */
    {21, 1, MAXPOOL, 1, {"version=", "version=+14", "version=-14", "version=14 ", "version= 14", "version=14\r", "version=14@", "version=14,", "version=14,14",
                         "version=14.0", "version=0xE", "version=fourteen", "version=version=14"}},
    {21, 1, MAXPOOL, 1, {"version=9\nversion=14", "version=9\nop=pool"}}, /* the first bad line */
    {20, 2, MAXPOOL, 1, {"op=maxpool", "version=14\nversion=14"}}, /* twelve lines and `op=` twice; thirteen and the version twice */
    {20, 2, MAXPOOL, 2, {"Op=maxpool", "op:maxpool", "axes=2", ""}},
    {22, 2, MAXPOOL, 2, {"op=pool", "op=maxpool ", "op=maxpool\r", "op=MaxPool", "op=maxpool-14", "op="}},
    {23, 2, MAXPOOL, 2, {"op=convolution", "op=transposed", "op=convolution\naxes=9"}},
    {20, 3, MAXPOOL, 2, {"op=maxpool\nversion=14", "op=maxpool\nop=maxpool"}},
    {20, 3, MAXPOOL, 3, {"axis=2", "Axes=2", ""}},
    {21, 3, MAXPOOL, 3, {"axes=0", "axes=4", "axes=02", "axes=14", "axes="}},
    {21, 4, MAXPOOL, 3, {"axes=1", "axes=3"}}, /* the lists are those of two axes */
    {20, 4, MAXPOOL, 4, {"inputs=1,2,3,3"}},
    {21, 4, MAXPOOL, 4, {"input=1,2,3", "input=1,2,3,3,1", "input=1,2,3,4294967296"}},
    {20, 5, MAXPOOL, 5, {"kernels=2,2", ""}},
    {21, 5, MAXPOOL, 5, {"kernel=2", "kernel=2,2,2", "kernel=1,1,1,2,2"}},
    {20, 6, MAXPOOL, 6, {"stride=1,1"}},
    {21, 6, MAXPOOL, 6, {"strides=1", "strides=1,1,1", "strides=01,1"}},
    {20, 7, MAXPOOL, 7, {"dilation=1,1"}},
    {21, 7, MAXPOOL, 7, {"dilations=1", "dilations=1,1,1"}},
    {20, 8, MAXPOOL, 8, {"auto-pad=valid", "pads_begin=0,0"}},
    {22, 8, MAXPOOL, 8, {"auto_pad=", "auto_pad=same", "auto_pad=valid "}},
    {20, 9, MAXPOOL, 9, {"pads_end=0,0"}},
    {21, 9, MAXPOOL, 9, {"pads_begin=0", "pads_begin=0,-1", "pads_begin=0,0,0"}},
    {20, 10, MAXPOOL, 10, {"pads_begin=0,0"}},
    {21, 10, MAXPOOL, 10, {"pads_end=0", "pads_end=0,0,0"}},
    {20, 11, MAXPOOL, 11, {"output-padding=0,0"}},
    {21, 11, MAXPOOL, 11, {"output_padding=1", "output_padding=1,4294967296"}}, /* before 23 */
    {23, 11, MAXPOOL, 11, {"output_padding=1,0", "output_padding=0,1"}},
    {20, 12, MAXPOOL, 12, {"Rounding=floor", "axis=0"}},
    {22, 12, MAXPOOL, 12, {"rounding=", "rounding=round", "rounding=floor ", "rounding=ceil_", "rounding=ceil_torc", "rounding=ceil_torchs",
                           "rounding=ceil-torch", "rounding=ceil_torch ", "rounding=ceil_torch\r", "rounding=CEIL_TORCH", "rounding=torch",
                           "rounding=floor,ceil"}},
    {20, 13, MAXPOOL, 13, {"axes=2", ""}},
    {21, 13, MAXPOOL, 13, {"axis=10", "axis=-0", "axis=", "axis=2 ", "axis=+1"}},
    {20, 14, MAXPOOL, 14, {"\n", "@", " ", "axis=0\n", "\r\n", "version=14\n"}},
};

/* The sheet of base(op, axes) with one line replaced. */
static size_t edit_sheet(char *to, enum op op, int version, int axes, uint32_t line, const char *by) {
    char text[KOZA_SHEET_MAX * 2];
    layer l = base(op, axes);
    l.version = version;
    text[write_layer(text, &l)] = 0;
    size_t n = line == 0 ? (size_t)sprintf(to, "%s", by) : 0;
    uint32_t at = 1;
    for (char *from = strtok(text, "\n"); line > 0 && from; from = strtok(NULL, "\n"))
        n += (size_t)sprintf(to + n, "%s\n", at++ == line ? by : from);
    if (line == at)
        n += (size_t)sprintf(to + n, "%s", by);
    for (size_t i = 0; i < n; i++)
        to[i] = to[i] == '@' ? 0 : to[i];
    return n;
}

static void try_sheets(const edited *sheets, size_t count, int version, int axes) {
    char text[KOZA_SHEET_MAX * 2];
    for (const edited *s = sheets; s < sheets + count; s++)
        for (const char *const *by = s->texts; *by; by++) {
            about = say("%s, version %d, axes %d, another line %u", OP_NAMES[s->op], version, axes, s->line);
            set_sheet(text, edit_sheet(text, s->op, version, axes, s->line, *by));
            try_refused_sheet(s->number, s->at);
        }
}

/* A sheet that is cut short lacks a line end, or the whole line: 20 at the line where the cut is. */
static void try_cut_sheets(const layer *l) {
    char text[KOZA_SHEET_MAX * 2];
    size_t len = write_layer(text, l);
    uint32_t line = 1;
    for (size_t cut = 0; cut < len; cut++) {
        about = say("%s, the first %zu bytes", layer_words(l).text, cut);
        set_sheet(text, cut);
        try_refused_sheet(20, line);
        line += text[cut] == '\n';
    }
}

/* All lines end in CR and LF: the word of line 1 is unknown, or its version is none. */
static void try_crlf(layer l) {
    char text[KOZA_SHEET_MAX * 2], crlf[KOZA_SHEET_MAX * 2];
    size_t len = write_layer(text, &l), n = 0;
    for (size_t i = 0; i < len; i++) {
        if (text[i] == '\n')
            crlf[n++] = '\r';
        crlf[n++] = text[i];
    }
    about = say("%s, CR LF", layer_words(&l).text);
    set_sheet(crlf, n);
    try_refused_sheet(l.version == 8 ? 22 : 21, 1);
}

/* ---- sheets written back */

/* In a buffer with `room` bytes: 24 where the sheet is longer, else the sheet's own bytes and nothing beyond them. */
static void try_rewrite(size_t room) {
    uint8_t *buffer = lend(OUTPUT, room);
    remember(OUTPUT);
    koza_written w = koza_rewrite(sheet, sheet_len, buffer, room);
    int fits = room >= sheet_len;
    const char *memory = kept(OUTPUT) ? "memory kept" : "buffer changed";
    if (fits) {
        memcpy(lent[OUTPUT].copy_end - room, sheet, sheet_len);
        memory = kept(OUTPUT) ? "the sheet written, nothing beyond" : "not the sheet, or bytes beyond it changed";
    }
    if (!kept(SHEET))
        memory = "sheet changed";
    words expected = say("number 24, line 0, length 0; memory kept");
    if (fits)
        expected = say("number 0, line 0, length %zu; the sheet written, nothing beyond", sheet_len);
    compare("koza_rewrite", expected, say("number %u, line %u, length %zu; %s", w.number, w.line, w.length, memory));
}

static void try_rewrites(const layer *l) {
    char text[KOZA_SHEET_MAX * 2];
    set_sheet(text, write_layer(text, l));
    about = say("%s, a sheet of %zu bytes", layer_words(l).text, sheet_len);
    const size_t rooms[] = {0, 1, sheet_len - 1, sheet_len, sheet_len + 1, sheet_len + 100, KOZA_SHEET_MAX};
    for (size_t i = 0; i < COUNT(rooms); i++)
        try_rewrite(rooms[i]);
}

/* The longest sheet that the reader takes: three axes, every number 4,294,967,295 except where a default is asked for. */
static void try_longest(layer l) {
    for (int f = N; f < FIELDS; f++)
        l.field[f] = l.op != TRANSPOSED && f >= PZ ? 0 : LARGEST;
    l.auto_pad = "same_upper";
    if (l.version == 14)
        l.rounding = "ceil_torch";
    l.axis = l.op == MAXPOOL ? -9 : 0;
    try_rewrites(&l);
    printf("longest sheet of %s, version %d: %zu bytes\n", OP_NAMES[l.op], l.version, sheet_len);
    about = say("the longest sheet of %s, version %d", OP_NAMES[l.op], l.version);
    check("KOZA_SHEET_MAX", say("room for it"), say(sheet_len <= KOZA_SHEET_MAX ? "room for it" : "%zu bytes are more", sheet_len));
    call_shape((koza_shape_answer){.number = 1});
    call_lengths((koza_lengths_answer){.number = 1});
}

/* ---- planes */

/* The tensor's memory may not even be read: no element is looked at. */
static const struct {
    uint64_t len;
    uint32_t sizes[5], at[3]; /* N, C, Z, Y and X; image, channel and depth */
    size_t start, length;
} PICKED[] = {
    {120, {2, 3, 1, 4, 5}, {0, 0, 0}, 0, 20}, {120, {2, 3, 1, 4, 5}, {0, 2, 0}, 40, 20}, {120, {2, 3, 1, 4, 5}, {1, 0, 0}, 60, 20},
    {120, {2, 3, 1, 4, 5}, {1, 2, 0}, 100, 20}, {120, {2, 3, 1, 4, 5}, {2, 0, 0}, 0, 0}, {120, {2, 3, 1, 4, 5}, {0, 3, 0}, 0, 0},
    {120, {2, 3, 1, 4, 5}, {0, 0, 1}, 0, 0}, {120, {2, 3, 1, 4, 5}, {LARGEST, 0, 0}, 0, 0}, {120, {2, 3, 1, 4, 5}, {0, LARGEST, 0}, 0, 0},
    {120, {2, 3, 1, 4, 5}, {0, 0, LARGEST}, 0, 0}, {119, {2, 3, 1, 4, 5}, {0, 0, 0}, 0, 0}, {121, {2, 3, 1, 4, 5}, {0, 0, 0}, 0, 0},
    {0, {2, 3, 1, 4, 5}, {0, 0, 0}, 0, 0}, {LARGEST + 121, {2, 3, 1, 4, 5}, {0, 0, 0}, 0, 0}, {30, {2, 3, 1, 1, 5}, {1, 2, 0}, 25, 5},
    {720, {2, 3, 6, 4, 5}, {0, 0, 0}, 0, 20}, {720, {2, 3, 6, 4, 5}, {0, 0, 1}, 20, 20}, {720, {2, 3, 6, 4, 5}, {0, 0, 5}, 100, 20},
    {720, {2, 3, 6, 4, 5}, {0, 1, 0}, 120, 20}, {720, {2, 3, 6, 4, 5}, {1, 0, 0}, 360, 20}, {720, {2, 3, 6, 4, 5}, {1, 2, 5}, 700, 20},
    {720, {2, 3, 6, 4, 5}, {2, 0, 0}, 0, 0}, {720, {2, 3, 6, 4, 5}, {0, 3, 0}, 0, 0}, {720, {2, 3, 6, 4, 5}, {0, 0, 6}, 0, 0},
    {720, {2, 3, 6, 4, 5}, {0, 0, LARGEST}, 0, 0}, {719, {2, 3, 6, 4, 5}, {0, 0, 0}, 0, 0}, {721, {2, 3, 6, 4, 5}, {0, 0, 0}, 0, 0},
    {120, {2, 3, 6, 4, 5}, {0, 0, 0}, 0, 0}, {0, {2, 3, 6, 4, 5}, {0, 0, 0}, 0, 0}, {720, {2, 3, 1, 4, 5}, {0, 0, 0}, 0, 0},
    {720, {2, 3, 4, 6, 5}, {1, 2, 3}, 690, 30}, {720, {2, 3, 24, 1, 5}, {1, 2, 23}, 715, 5}, {720, {2, 3, 120, 1, 1}, {1, 2, 119}, 719, 1},
    {0, {0, 3, 6, 4, 5}, {0, 0, 0}, 0, 0}, {0, {2, 0, 6, 4, 5}, {0, 0, 0}, 0, 0}, {0, {2, 3, 0, 4, 5}, {0, 0, 0}, 0, 0},
    {0, {2, 3, 6, 0, 5}, {0, 0, 0}, 0, 0}, {0, {2, 3, 6, 4, 0}, {0, 0, 0}, 0, 0}, {0, {0, 0, 0, 0, 0}, {0, 0, 0}, 0, 0},
    {1, {1, 1, 1, 1, 1}, {0, 0, 0}, 0, 1}, {16, {16, 1, 1, 1, 1}, {15, 0, 0}, 15, 1}, {1024, {1, 1024, 1, 1, 1}, {0, 1023, 0}, 1023, 1},
    {4096, {1, 1, 4096, 1, 1}, {0, 0, 4095}, 4095, 1}, {4096, {1, 1, 1, 4096, 1}, {0, 0, 0}, 0, 4096}, {4096, {1, 1, 1, 1, 4096}, {0, 0, 0}, 0, 4096},
    {16, {16, 1, 1, 1, 1}, {16, 0, 0}, 0, 0}, {1024, {1, 1024, 1, 1, 1}, {0, 1024, 0}, 0, 0}, {4096, {1, 1, 4096, 1, 1}, {0, 0, 4096}, 0, 0},
    {17, {17, 1, 1, 1, 1}, {0, 0, 0}, 0, 0}, {1025, {1, 1025, 1, 1, 1}, {0, 0, 0}, 0, 0}, {4097, {1, 1, 4097, 1, 1}, {0, 0, 0}, 0, 0},
    {4097, {1, 1, 1, 4097, 1}, {0, 0, 0}, 0, 0}, {4097, {1, 1, 1, 1, 4097}, {0, 0, 0}, 0, 0},
    {LARGEST, {LARGEST, 1, 1, 1, 1}, {0, 0, 0}, 0, 0}, {LARGEST, {1, LARGEST, 1, 1, 1}, {0, 0, 0}, 0, 0}, {LARGEST, {1, 1, LARGEST, 1, 1}, {0, 0, 0}, 0, 0},
    {LARGEST, {1, 1, 1, LARGEST, 1}, {0, 0, 0}, 0, 0}, {LARGEST, {1, 1, 1, 1, LARGEST}, {0, 0, 0}, 0, 0},
    {1, {LARGEST, LARGEST, 1, 1, 1}, {0, 0, 0}, 0, 0},           /* 1 modulo 2^32 */
    {1, {LARGEST, LARGEST, 1, LARGEST, LARGEST}, {0, 0, 0}, 0, 0},
    {0, {65536, 65536, 1, 65536, 65536}, {0, 0, 0}, 0, 0},       /* 0 modulo 2^64 */
    {0, {65536, 65536, 65536, 65536, 65536}, {0, 0, 0}, 0, 0},
    {0, {16, 1024, 1, 4096, 64}, {0, 0, 0}, 0, 0},               /* 2^32 elements, 0 modulo 2^32 */
    {0, {16, 1024, 64, 64, 64}, {0, 0, 0}, 0, 0},
    {1 << 26, {16, 1024, 1, 4096, 65}, {0, 0, 0}, 0, 0},         /* 2^32 + 2^26 elements */
    /* The picker has no limit of elements: 2^24 + 1, 2^25, 2^32, 2^38 and 2^42 of them. */
    {16777217, {1, 97, 257, 673, 1}, {0, 96, 256}, 24928 * 673, 673},
    {1 << 25, {1, 2, 4096, 4096, 1}, {0, 1, 4095}, 8191 * 4096, 4096},
    {LARGEST + 1, {16, 1024, 1, 4096, 64}, {15, 1023, 0}, 16383 * (UINT64_C(1) << 18), 1 << 18},
    {LARGEST + 1, {16, 1024, 64, 64, 64}, {15, 1023, 63}, 1048575 * (UINT64_C(1) << 12), 1 << 12},
    {UINT64_C(1) << 38, {16, 1024, 1, 4096, 4096}, {15, 1023, 0}, 16383 * (UINT64_C(1) << 24), 1 << 24},
    {UINT64_C(1) << 38, {16, 1024, 1, 4096, 4096}, {16, 1023, 0}, 0, 0},
    {UINT64_C(1) << 42, {16, 1024, 16, 4096, 4096}, {15, 1023, 15}, 262143 * (UINT64_C(1) << 24), 1 << 24},
    {UINT64_C(1) << 42, {16, 1024, 16, 4096, 4096}, {15, 1023, 16}, 0, 0},
    {0, {16, 1024, 1, 4096, 4096}, {0, 0, 0}, 0, 0},
};

static void try_planes(void) {
    for (size_t i = 0; i < COUNT(PICKED); i++) {
        size_t bytes = PICKED[i].len * sizeof(float);
        float *tensor = bytes == 0 ? NULL : reserve(bytes, PROT_NONE);
        if (bytes > 0 && !tensor) {
            not_tried++;
            continue;
        }
        const uint32_t *s = PICKED[i].sizes, *at = PICKED[i].at;
        about = say("%" PRIu64 " elements, [%u, %u, %u, %u, %u], image %u, channel %u, depth %u", PICKED[i].len, s[0], s[1], s[2], s[3], s[4], at[0],
                    at[1], at[2]);
        koza_part p = koza_plane(tensor, PICKED[i].len, s[0], s[1], s[2], s[3], s[4], at[0], at[1], at[2]);
        compare("koza_plane", say("start %zu, length %zu", PICKED[i].start, PICKED[i].length), say("start %zu, length %zu", p.start, p.length));
        if (tensor)
            munmap(tensor, bytes);
    }
}

/* ---- peaks */

static const struct {
    size_t len, width;
    float plane[6];
    koza_peak_answer expected;
} PEAKS[] = {
    {1, 1, {2}, {.value = 2, .row = 0, .column = 0}},
    {6, 3, {1, 0, 2, 0, 2, 0}, {.value = 2, .row = 0, .column = 2}}, /* the first of two */
    {6, 2, {1, 0, 1, 2, 2, 0}, {.value = 2, .row = 1, .column = 1}},
    {6, 6, {0, 0, 0, 0, 0, 1}, {.value = 1, .row = 0, .column = 5}},
    {6, 1, {0, 0, 0, 0, 0, 1}, {.value = 1, .row = 5, .column = 0}},
    {3, 3, {-3, -1, -2}, {.value = -1, .row = 0, .column = 1}},
    {2, 2, {-0.0f, 0}, {.value = -0.0f, .row = 0, .column = 0}}, /* -0 equals +0 and keeps its bits */
    {2, 2, {0, -0.0f}, {.value = 0, .row = 0, .column = 0}},
    {2, 2, {-0x1p40f, 0x1p40f}, {.value = 0x1p40f, .row = 0, .column = 1}},
    {1, 1, {-0x1p40f}, {.value = -0x1p40f, .row = 0, .column = 0}},
    {0, 0, {0}, {.number = 8}}, {0, 1, {0}, {.number = 8}}, {0, SIZE_MAX, {0}, {.number = 8}}, {2, 0, {0}, {.number = 8}},
    {5, 2, {0}, {.number = 8}}, {2, 3, {0}, {.number = 8}}, {2, SIZE_MAX, {0}, {.number = 8}}, {1, LARGEST + 2, {0}, {.number = 8}},
    {2, 3, {NAN, NAN}, {.number = 8}}, {2, 0, {NAN, NAN}, {.number = 8}},
    {6, 3, {1, 0, NAN, 0, INFINITY, 0}, {.number = 9, .place = 2, .bad = 2}},
    {6, 3, {0x1p41f, 0, -0x1p41f, 0x1p40f, 0, 0x1p41f}, {.number = 9, .place = 0, .bad = 3}},
    {6, 2, {NAN, -INFINITY, 0x1p41f, -0x1p41f, INFINITY, -NAN}, {.number = 9, .place = 0, .bad = 6}},
    {1, 1, {NAN}, {.number = 9, .place = 0, .bad = 1}},
};

static void call_peak(const float *elements, size_t len, size_t width, koza_peak_answer expected) {
    float *plane = lend(INPUT, len * sizeof *plane);
    if (len > 0)
        memcpy(plane, elements, len * sizeof *plane);
    remember(INPUT);
    koza_peak_answer p = koza_peak(plane, len, width);
    const char *format = "number %u, place %zu, bad %zu, value %a, row %zu, column %zu; %s";
    compare("koza_peak", say(format, expected.number, expected.place, expected.bad, expected.value, expected.row, expected.column, "memory kept"),
            say(format, p.number, p.place, p.bad, p.value, p.row, p.column, kept(INPUT) ? "memory kept" : "plane changed"));
}

static void try_peaks(void) {
    for (size_t i = 0; i < COUNT(PEAKS); i++) {
        about = say("peak %zu of the table", i);
        call_peak(PEAKS[i].plane, PEAKS[i].len, PEAKS[i].width, PEAKS[i].expected);
    }
    /* Each bad element in each place. */
    for (size_t e = 0; e < COUNT(ELEMENTS); e++)
        for (size_t place = 0; place < 6 && ELEMENTS[e].bad; place++) {
            float plane[6] = {1, 1, 1, 1, 1, 1};
            memcpy(&plane[place], &ELEMENTS[e].bits, sizeof plane[place]);
            about = say("%s at place %zu of 6", ELEMENTS[e].what, place);
            call_peak(plane, 6, 3, (koza_peak_answer){.number = 9, .place = place, .bad = 1});
        }
}

/* ---- what stands in the header alone */

static void try_texts(void) {
    static const uint32_t numbers[] = {0, 1, 2, 3, 4, 5, 6, 7, 8, 9, 20, 21, 22, 23, 24}, others[] = {10, 19, 25, UINT32_MAX};
    const char *unknown = koza_text(UINT32_MAX);
    for (size_t i = 0; i < COUNT(numbers); i++) {
        int own = strcmp(koza_text(numbers[i]), unknown) != 0;
        for (size_t k = 0; k < i; k++)
            own = own && strcmp(koza_text(numbers[i]), koza_text(numbers[k])) != 0;
        about = say("number %u", numbers[i]);
        compare("koza_text", say("a text of its own"), say(own ? "a text of its own" : "the text of another number"));
    }
    for (size_t i = 0; i < COUNT(others); i++) {
        about = say("number %u", others[i]);
        compare("koza_text", say("%s", unknown), say("%s", koza_text(others[i])));
    }
}

/* Bytes from a place on, of one buffer and of another. */
static const struct {
    const char *what;
    uintptr_t a;
    size_t a_bytes;
    uintptr_t b;
    size_t b_bytes;
    int overlap;
} OVERLAPS[] = {
    {"touching", 64, 8, 72, 8, 0},
    {"one byte in common", 64, 9, 72, 8, 1},
    {"overlapping", 64, 8, 68, 8, 1},
    {"nested", 64, 32, 72, 8, 1},
    {"nested, same end", 64, 32, 88, 8, 1},
    {"equal", 64, 8, 64, 8, 1},
    {"same start", 64, 1, 64, 8, 1},
    {"apart", 64, 8, 80, 8, 0},
    {"an empty one inside", 64, 8, 66, 0, 0},
    {"an empty one at the start", 64, 8, 64, 0, 0},
    {"two empty ones", 64, 0, 64, 0, 0},
    {"null and empty", 0, 0, 64, 8, 0},
    {"the last byte of all", 1, SIZE_MAX, UINTPTR_MAX, 1, 1},
    {"all but the last byte", 0, SIZE_MAX, UINTPTR_MAX, 1, 0},
    {"far apart", 8, 8, UINTPTR_MAX - 8, 8, 0},
};

static void try_overlaps(void) {
    for (size_t i = 0; i < COUNT(OVERLAPS); i++) {
        const void *a = (const void *)OVERLAPS[i].a, *b = (const void *)OVERLAPS[i].b;
        size_t a_bytes = OVERLAPS[i].a_bytes, b_bytes = OVERLAPS[i].b_bytes;
        about = say("%s", OVERLAPS[i].what);
        compare("koza_overlap", say("%d", OVERLAPS[i].overlap), say("%d", koza_overlap(a, a_bytes, b, b_bytes)));
        compare("koza_overlap", say("%d", OVERLAPS[i].overlap), say("%d", koza_overlap(b, b_bytes, a, a_bytes)));
    }
}

/* Whether this machine computes otherwise in the mode that is set: an emulator may keep to the default one, and then no answer can be asked for. */
static int mode_shows(void) {
    volatile float one = 1.0f, minus_one = -1.0f, three = 3.0f, least_normal = 0x1p-126f, least = 0x1p-149f, half = 0.5f;
    volatile float third = one / three, minus_third = minus_one / three, subnormal = least_normal * half;
    return third != 0x1.555556p-2f || minus_third != -0x1.555556p-2f || subnormal == 0.0f || !(least > 0.0f);
}

static void try_float_mode(const char *name, int rounding, unsigned control) {
    unsigned before = _mm_getcsr();
    fesetround(rounding);
    _mm_setcsr(_mm_getcsr() | control);
    int shows = mode_shows(), ok = koza_float_mode_ok();
    fesetround(FE_TONEAREST);
    _mm_setcsr(before);
    int default_mode = rounding == FE_TONEAREST && control == 0;
    about = say("%s", name);
    if (!default_mode && !shows)
        not_tried++;
    else
        compare("koza_float_mode_ok", say("%d", default_mode), say("%d", ok));
}

static void try_float_modes(void) {
    static const struct {
        const char *name;
        int rounding;
        unsigned control; /* bits of MXCSR: 15 flush to zero, 6 denormals are zeros */
    } FLOAT_MODES[] = {
        {"the default mode", FE_TONEAREST, 0},
        {"upward", FE_UPWARD, 0},
        {"downward", FE_DOWNWARD, 0},
        {"toward zero", FE_TOWARDZERO, 0},
        {"flush to zero", FE_TONEAREST, 0x8000},
        {"denormals are zeros", FE_TONEAREST, 0x40},
        {"flush to zero, denormals are zeros", FE_TONEAREST, 0x8040},
        {"the default mode again", FE_TONEAREST, 0},
    };
    for (size_t i = 0; i < COUNT(FLOAT_MODES); i++)
        try_float_mode(FLOAT_MODES[i].name, FLOAT_MODES[i].rounding, FLOAT_MODES[i].control);
}

/* ---- all of it */

/* Nothing lent at all, by null pointers and by others. */
static void try_nothing(enum op op) {
    char text[KOZA_SHEET_MAX * 2];
    layer l = base(op, 2);
    for (null_where_empty = 0; null_where_empty < 2; null_where_empty++) {
        about = say("%s, no bytes, null %d", OP_NAMES[op], null_where_empty);
        set_sheet("", 0);
        call_operator(op, (lengths){0, 0, 0, 0}, NULL, 0, (koza_answer){.number = 20, .line = 1});
        try_refused_sheet(20, 1);
        about = say("%s, no element, null %d", OP_NAMES[op], null_where_empty);
        set_sheet(text, write_layer(text, &l));
        call_operator(op, (lengths){0, 0, 0, 0}, NULL, 0, (koza_answer){.number = 8});
        try_rewrite(0);
        call_peak(NULL, 0, 1, (koza_peak_answer){.number = 8});
    }
    null_where_empty = 1;
}

static void try_operator(const layer *l) {
    for (size_t m = 0; m < COUNT(MODES); m++) {
        layer in_mode = *l;
        in_mode.auto_pad = MODES[m];
        try_limits(in_mode);
        try_rewrites(&in_mode);
    }
    try_other_operators(*l);
    try_lengths(l);
    try_elements(l);
    try_counts(l);
    try_cut_sheets(l);
}

/* MaxPool-14: as the operators, and every mode with ceil_torch written back. */
static void try_version_14(int axes) {
    layer l = base_14(axes);
    try_operator(&l);
    l.rounding = "ceil_torch";
    for (size_t m = 0; m < COUNT(MODES); m++) {
        l.auto_pad = MODES[m];
        try_rewrites(&l);
    }
    try_cut_sheets(&l);
}

static void try_operators(void) {
    for (int op = 0; op < OPS; op++) {
        try_nothing((enum op)op);
        for (int axes = 1; axes <= 3; axes++) {
            layer l = base((enum op)op, axes);
            try_operator(&l);
        }
        try_crlf(base((enum op)op, 2));
        try_longest(base((enum op)op, 3));
    }
    for (int f = 0; f < FUNCTIONS; f++)
        for (int b = INPUT; b < BUFFERS; b++)
            try_long_buffer((enum function)f, b);
    for (int axes = 1; axes <= 3; axes++)
        try_version_14(axes);
    try_crlf(base_14(2));
    try_longest(base_14(3));
}

int main(void) {
    make_memory();
    about = say("the archive's beside the header's");
    compare("koza_version", say("%d", KOZA_VERSION), say("%u", koza_version()));
    try_operators();
    for (int axes = 1; axes <= 3; axes++) {
        try_axis(axes);
        for (int axis = 3 - axes; axis < 3; axis++)
            try_windows((enum field)(Z + axis), axes);
    }
    try_most_outputs();
    try_combined();
    try_channels_of_outputs(CONVOLUTION);
    try_channels_of_outputs(TRANSPOSED);
    try_results();
    try_sheets(SHEETS, COUNT(SHEETS), 8, 2);
    try_sheets(SHEETS_3, COUNT(SHEETS_3), 8, 3);
    try_sheets(SHEETS_14, COUNT(SHEETS_14), 14, 2);
    set_sheet("", 0);
    try_planes();
    try_peaks();
    try_texts();
    try_overlaps();
    try_float_modes();
    if (not_tried > 0)
        printf("%lu cases not tried: no address space for them, or float modes that this machine does not follow\n", not_tried);
    printf("%lu calls, %lu differ\n", calls, differ);
    return differ != 0;
}
