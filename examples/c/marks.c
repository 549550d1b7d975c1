/* Finds the mark in a small picture: a convolution brings it out, max pooling says where it is, a transposed convolution spreads the map back.
 * usage: marks CONVOLUTION.sheet MAXPOOL.sheet TRANSPOSED.sheet [FOLDER]
 * With FOLDER, an existing one, the picture and the three maps are written there as PGM files.
 * Status 1: a call was refused; 2: something else went wrong. */
#include "kozamyure.h"
#include <errno.h>
#include <inttypes.h>
#include <math.h>
#include <stdio.h>
#include <stdlib.h>
#include <string.h>

/* Tells what is wrong and where, and ends the program. */
#define STOP(status, ...) (fprintf(stderr, "marks: " __VA_ARGS__), fputc('\n', stderr), exit(status))

/* A layer: its sheet, the element counts of its buffers, the sizes of its output. */
typedef struct {
    const char *path;
    uint8_t sheet[KOZA_SHEET_MAX + 1];
    size_t sheet_len;
    koza_lengths_answer lengths;
    koza_shape_answer shape;
} layer;

/* The elements of a picture or of a map, row by row. */
typedef struct {
    const float *elements;
    size_t height, width;
} plane;

/* ---- calls of the library */

/* Ends the program unless the answer is 0. */
static void done(const char *what, koza_answer a) {
    if (a.number != KOZA_DONE)
        STOP(1, "%s is refused: number %" PRIu32 ", line %" PRIu32 ", tensor %" PRIu32 ", place %zu, %zu bad: %s", what, a.number, a.line, a.tensor,
             a.place, a.bad, koza_text(a.number));
}

/* Reads a sheet and asks for the sizes that it leads to. No sheet has more bytes than KOZA_SHEET_MAX. */
static layer open_layer(const char *path) {
    layer l = {.path = path};
    FILE *f = fopen(path, "rb");
    if (!f)
        STOP(2, "cannot open %s: %s", path, strerror(errno));
    l.sheet_len = fread(l.sheet, 1, sizeof l.sheet, f);
    if (ferror(f))
        STOP(2, "cannot read %s: %s", path, strerror(errno));
    fclose(f);
    if (l.sheet_len > KOZA_SHEET_MAX)
        STOP(2, "%s has more than %d bytes: no sheet is as long", path, KOZA_SHEET_MAX);
    l.lengths = koza_lengths(l.sheet, l.sheet_len);
    done(path, (koza_answer){.number = l.lengths.number, .line = l.lengths.line});
    l.shape = koza_shape(l.sheet, l.sheet_len);
    return l;
}

static void *output_of(const layer *l, size_t element_bytes) {
    void *output = calloc(l->lengths.output, element_bytes);
    if (!output)
        STOP(2, "no memory for the %zu outputs of %s", l->lengths.output, l->path);
    return output;
}

/* The plane of the first image, its first channel and its first depth. */
static plane first_plane(const layer *l, const float *output) {
    koza_shape_answer s = l->shape;
    koza_part part = koza_plane(output, l->lengths.output, s.n, s.c, s.z, s.y, s.x, 0, 0, 0);
    if (part.length == 0)
        STOP(1, "%s: no plane can be taken from an output of %" PRIu32 " rows and %" PRIu32 " columns", l->path, s.y, s.x);
    return (plane){output + part.start, s.y, s.x};
}

static koza_peak_answer print_peak(const char *name, plane p) {
    koza_peak_answer peak = koza_peak(p.elements, p.height * p.width, p.width);
    done(name, (koza_answer){.number = peak.number, .place = peak.place, .bad = peak.bad});
    printf("%s: peak %g at row %zu, column %zu\n", name, peak.value, peak.row, peak.column);
    return peak;
}

/* ---- PGM files */

/* The grey level of each element: the least is black, the largest white; a flat plane is black. */
static unsigned char *grey_levels(plane p) {
    size_t count = p.height * p.width;
    unsigned char *grey = calloc(count, 1);
    if (!grey)
        STOP(2, "no memory for %zu grey levels", count);
    double least = p.elements[0], largest = p.elements[0];
    for (size_t i = 0; i < count; i++) {
        least = p.elements[i] < least ? p.elements[i] : least;
        largest = p.elements[i] > largest ? p.elements[i] : largest;
    }
    for (size_t i = 0; i < count && largest > least; i++)
        grey[i] = (unsigned char)(255 * (p.elements[i] - least) / (largest - least) + 0.5);
    return grey;
}

/* A frame within a square of pixels: a white line at its edge, a black one inside. One of them shows on any ground. */
static int framed(int grey, size_t y, size_t x, size_t side) {
    size_t down = side - 1 - y, right = side - 1 - x, line = (side + 11) / 12;
    size_t edge = y < down ? y : down;
    edge = x < edge ? x : edge;
    edge = right < edge ? right : edge;
    return edge < line ? 255 : edge < 2 * line ? 0 : grey;
}

/* Each element becomes a square of pixels. All files are some 288 pixels wide, so that places in them can be compared. `mark` may be null. */
static void write_plane(const char *folder, const char *name, plane p, const koza_peak_answer *mark) {
    char path[4096];
    if ((size_t)snprintf(path, sizeof path, "%s/%s", folder, name) >= sizeof path)
        STOP(2, "cannot write %s: the path of its folder is too long", name);
    FILE *f = fopen(path, "wb");
    if (!f)
        STOP(2, "cannot write %s: %s", path, strerror(errno));
    unsigned char *grey = grey_levels(p);
    size_t side = p.width < 288 ? 288 / p.width : 1;
    fprintf(f, "P5\n%zu %zu\n255\n", p.width * side, p.height * side);
    for (size_t y = 0; y < p.height * side; y++)
        for (size_t x = 0; x < p.width * side; x++) {
            size_t row = y / side, column = x / side;
            int level = grey[row * p.width + column];
            putc(mark && row == mark->row && column == mark->column ? framed(level, y % side, x % side, side) : level, f);
        }
    free(grey);
    int failed = ferror(f);
    if (fclose(f) != 0 || failed)
        STOP(2, "cannot write %s: %s", path, strerror(errno));
}

/* ---- the pipeline */

enum { HEIGHT = 8, WIDTH = 12 };
static float picture[HEIGHT * WIDTH];
static const float cross[9] = {-1, 2, -1, 2, 3, 2, -1, 2, -1};
static const float spread[4] = {1, 1, 1, 1};

/* Weak stripes, and a bright cross at row 5, column 8. */
static void draw_picture(void) {
    for (size_t i = 0; i < HEIGHT * WIDTH; i++)
        picture[i] = (float)(i % 3);
    picture[5 * WIDTH + 8] = picture[4 * WIDTH + 8] = picture[6 * WIDTH + 8] = picture[5 * WIDTH + 7] = picture[5 * WIDTH + 9] = 50;
}

/* Calls that are refused change nothing. How many elements are bad tells a few specks from a camera that has failed. */
static void print_refusals(const layer *conv, float *marks) {
    size_t len = HEIGHT * WIDTH, marks_len = conv->lengths.output;
    float specks[HEIGHT * WIDTH];
    memcpy(specks, picture, sizeof specks);
    specks[17] = specks[40] = specks[95] = NAN;
    koza_answer a = koza_convolution(conv->sheet, conv->sheet_len, picture, len - 1, cross, 9, marks, marks_len);
    printf("one element too few: number %" PRIu32 "\n", a.number);
    a = koza_convolution(conv->sheet, conv->sheet_len, specks, len, cross, 9, marks, marks_len);
    printf("three elements NaN: number %" PRIu32 ", %zu bad elements, the first at %zu\n", a.number, a.bad, a.place);
}

static void run(const layer *conv, const layer *pool, const layer *trans, const char *folder) {
    float *marks = output_of(conv, sizeof *marks), *values = output_of(pool, sizeof *values), *map = output_of(trans, sizeof *map);
    int64_t *indices = output_of(pool, sizeof *indices);
    size_t marks_len = conv->lengths.output, values_len = pool->lengths.output, map_len = trans->lengths.output;

    done("convolution", koza_convolution(conv->sheet, conv->sheet_len, picture, HEIGHT * WIDTH, cross, 9, marks, marks_len));
    print_peak("convolution", first_plane(conv, marks));

    done("maxpool", koza_maxpool(pool->sheet, pool->sheet_len, marks, marks_len, values, values_len, indices, values_len));
    koza_peak_answer best = print_peak("maxpool", first_plane(pool, values));
    int64_t place = indices[best.row * pool->shape.x + best.column];
    printf("the mark is at row %" PRId64 ", column %" PRId64 "\n", place / WIDTH, place % WIDTH);

    done("transposed", koza_transposed(trans->sheet, trans->sheet_len, values, values_len, spread, 4, map, map_len));
    koza_peak_answer peak = print_peak("transposed", first_plane(trans, map));

    print_refusals(conv, marks);
    if (folder) {
        write_plane(folder, "picture.pgm", (plane){picture, HEIGHT, WIDTH}, NULL);
        write_plane(folder, "convolution.pgm", first_plane(conv, marks), NULL);
        write_plane(folder, "values.pgm", first_plane(pool, values), NULL);
        write_plane(folder, "spread.pgm", first_plane(trans, map), &peak);
    }
    free(marks), free(values), free(indices), free(map);
}

int main(int argc, char **argv) {
    if (argc != 4 && argc != 5) {
        fprintf(stderr, "usage: marks CONVOLUTION.sheet MAXPOOL.sheet TRANSPOSED.sheet [FOLDER]\n");
        return 2;
    }
    if (koza_version() != KOZA_VERSION)
        STOP(2, "compiled with version %d of the header, linked with version %" PRIu32 " of the archive", KOZA_VERSION, koza_version());
    if (!koza_float_mode_ok())
        STOP(2, "the floating-point mode is not the default one: rounding to nearest, subnormal numbers kept");
    layer conv = open_layer(argv[1]), pool = open_layer(argv[2]), trans = open_layer(argv[3]);
    draw_picture();
    run(&conv, &pool, &trans, argc == 5 ? argv[4] : NULL);
    return 0;
}
