// The benchmark's baselines in C: the loops of a call, one output after another, or with ROWS each convolution tap by tap over a whole row of outputs, which
// a compiler can make fast. Each output's sum has the same order in both. The build compiles this file for each baseline; RUN is the function's name.
#include <stdint.h>

enum { CONVOLUTION, TRANSPOSED, MAX_POOL };

// One axis: input, kernel, stride, dilation, the pad at the beginning and the output.
struct axis {
    int size, kernel, stride, dilation, begin, out;
};

// One group of one image: input and output channels, and Z, Y and X.
struct call {
    int op, axes, channels, outs;
    struct axis z, y, x;
};

#define EACH(v, n) for (int v = 0; v < (n); v++)
#define INLINE static inline __attribute__((always_inline))

// Where tap k of output p lies, or -1 outside the input.
INLINE int tap(const struct axis *a, int p, int k) {
    int t = p * a->stride - a->begin + k * a->dilation;
    return t >= 0 && t < a->size ? t : -1;
}

// Where tap k of a transposed convolution's output p comes from, or -1 if nothing reaches it.
INLINE int source(const struct axis *a, int p, int k) {
    int t = p + a->begin - k * a->dilation;
    return t >= 0 && t % a->stride == 0 && t / a->stride < a->size ? t / a->stride : -1;
}

// The Z axis. With two axes it is a constant, so that a compiler leaves its loops out.
INLINE struct axis depths(const struct call *c, int three) {
    return three ? c->z : (struct axis){1, 1, 1, 1, 0, 1};
}

// Kernel row kz, ky from input channel i to output channel o.
INLINE const float *kernel_row(const struct call *c, const struct axis *z, const float *kernel, int o, int i, int kz, int ky, int transposed) {
    int channels = transposed ? i * c->outs + o : o * c->channels + i;
    return kernel + ((channels * z->kernel + kz) * c->y.kernel + ky) * c->x.kernel;
}

// Where row r at depth d of an input channel begins.
INLINE int input_row(const struct call *c, const struct axis *z, int channel, int d, int r) {
    return ((channel * z->size + d) * c->y.size + r) * c->x.size;
}

#ifdef ROWS

// The first j with j * stride >= distance, from 0 to n.
INLINE int steps(int distance, int stride, int n) {
    int j = distance <= 0 ? 0 : (distance + stride - 1) / stride;
    return j < n ? j : n;
}

// out[j * so] += in[j * si] * weight.
INLINE void add_products(float *restrict out, const float *restrict in, float weight, int n, int so, int si) {
    EACH(j, n) out[j * so] += in[j * si] * weight;
}

// Tap k of a kernel row for each output of a row that it reaches: in a convolution outputs side by side take values a stride apart, in a transposed
// one outputs a stride apart take values side by side.
INLINE void add_tap(const struct axis *a, float *out, const float *in, float weight, int k, int transposed) {
    int n = transposed ? a->size : a->out, end = transposed ? a->out : a->size;
    int back = a->begin - k * a->dilation;
    int lo = steps(back, a->stride, n), hi = steps(back + end, a->stride, n), far = lo * a->stride - back;
    if (hi <= lo) return;
    if (transposed)
        add_products(out + far, in + lo, weight, hi - lo, a->stride, 1);
    else
        add_products(out + lo, in + far, weight, hi - lo, 1, a->stride);
}

INLINE void convolve(const struct call *c, const float *input, const float *kernel, float *output, int transposed, int three) {
    const struct axis z = depths(c, three);
    EACH(o, c->outs) EACH(n, z.out) EACH(p, c->y.out) {
        float *out = output + ((o * z.out + n) * c->y.out + p) * c->x.out;
        EACH(q, c->x.out) out[q] = 0;
        EACH(i, c->channels) EACH(kz, z.kernel) EACH(ky, c->y.kernel) {
            int d = transposed ? source(&z, n, kz) : tap(&z, n, kz);
            int r = transposed ? source(&c->y, p, ky) : tap(&c->y, p, ky);
            if (d < 0 || r < 0) continue;
            const float *weights = kernel_row(c, &z, kernel, o, i, kz, ky, transposed);
            EACH(kx, c->x.kernel) add_tap(&c->x, out, input + input_row(c, &z, i, d, r), weights[kx], kx, transposed);
        }
    }
}

#else

INLINE void convolve(const struct call *c, const float *input, const float *kernel, float *output, int transposed, int three) {
    const struct axis z = depths(c, three);
    EACH(o, c->outs) EACH(n, z.out) EACH(p, c->y.out) EACH(q, c->x.out) {
        float sum = 0;
        EACH(i, c->channels) EACH(kz, z.kernel) EACH(ky, c->y.kernel) {
            int d = transposed ? source(&z, n, kz) : tap(&z, n, kz);
            int r = transposed ? source(&c->y, p, ky) : tap(&c->y, p, ky);
            if (transposed && (d < 0 || r < 0)) continue;
            const float *weights = kernel_row(c, &z, kernel, o, i, kz, ky, transposed);
            EACH(kx, c->x.kernel) {
                int s = transposed ? source(&c->x, q, kx) : tap(&c->x, q, kx);
                if (transposed && s < 0) continue;
                sum += (d < 0 || r < 0 || s < 0 ? 0 : input[input_row(c, &z, i, d, r) + s]) * weights[kx];
            }
        }
        output[((o * z.out + n) * c->y.out + p) * c->x.out + q] = sum;
    }
}

#endif

INLINE void max_pool(const struct call *restrict c, const float *input, float *values, int64_t *restrict indices, int three) {
    const struct axis z = depths(c, three);
    EACH(channel, c->channels) EACH(n, z.out) EACH(p, c->y.out) EACH(q, c->x.out) {
        float best = 0;
        int at = -1;
        EACH(kz, z.kernel) EACH(ky, c->y.kernel) {
            int d = tap(&z, n, kz), r = tap(&c->y, p, ky);
            if (d < 0 || r < 0) continue;
            EACH(kx, c->x.kernel) {
                int s = tap(&c->x, q, kx), place = input_row(c, &z, channel, d, r) + s;
                if (s >= 0 && (at < 0 || best < input[place])) best = input[at = place];
            }
        }
        *values++ = best;
        *indices++ = at;
    }
}

INLINE void run(const struct call *c, const float *input, const float *kernel, float *output, int64_t *indices, int three) {
    if (c->op == CONVOLUTION)
        convolve(c, input, kernel, output, 0, three);
    else if (c->op == TRANSPOSED)
        convolve(c, input, kernel, output, 1, three);
    else
        max_pool(c, input, output, indices, three);
}

void RUN(const struct call *c, const float *input, const float *kernel, float *output, int64_t *indices) {
    if (c->axes == 3)
        run(c, input, kernel, output, indices, 1);
    else
        run(c, input, kernel, output, indices, 0);
}
