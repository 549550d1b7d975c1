//! The benchmark's baselines: the loops of a call in plain Rust, and those of `baseline.c`. Their calls are accepted ones, of one image and one group.
use crate::reference::{Along, Axis, Layer, Op, Shape, UNUSED, X, Y, Z};

pub struct Call {
    pub sheet: Vec<u8>,
    pub layer: Layer,
    pub shape: Shape,
    pub input: Vec<f32>,
    pub kernel: Vec<f32>,
}

/// What a call writes. Without pooling there are no indices.
#[derive(Clone)]
pub struct Outputs {
    pub values: Vec<f32>,
    pub indices: Vec<i64>,
}

// ---- plain Rust

/// Z, Y and X, and their sizes.
struct Spatial {
    axes: [(Axis, Along); 3],
    kernel: [usize; 3],
    size: [usize; 3],
    out: [usize; 3],
}

/// With two axes Z is a constant, so that a compiler leaves its loops out.
fn spatial<const THREE: bool>(l: &Layer, s: &Shape) -> Spatial {
    let z = if THREE { (l.spatial[Z], s.along[Z]) } else { (UNUSED, Along { begin: 0, out: 1 }) };
    let axes = [z, (l.spatial[Y], s.along[Y]), (l.spatial[X], s.along[X])];
    Spatial { axes, kernel: axes.map(|(a, _)| a.kernel as usize), size: axes.map(|(a, _)| a.size as usize), out: axes.map(|(_, s)| s.out as usize) }
}

/// Position k of a tap, if it lies inside.
fn at(p: usize, (a, s): &(Axis, Along), k: usize) -> Option<usize> {
    let t = p as i64 * a.stride as i64 - s.begin + k as i64 * a.dilation as i64;
    (0..a.size as i64).contains(&t).then_some(t as usize)
}

fn convolution<const THREE: bool>(l: &Layer, s: &Shape, input: &[f32], kernel: &[f32], output: &mut [f32]) {
    let Spatial { axes: [az, ay, ax], kernel: [kz, ky, kx], size: [d, h, w], out: [oz, oy, ox] } = spatial::<THREE>(l, s);
    let i = l.i as usize;
    for o in 0..l.o as usize {
        for z in 0..oz {
            for y in 0..oy {
                for x in 0..ox {
                    let mut sum = 0.0f32;
                    for c in 0..i {
                        for e in 0..kz {
                            let depth = at(z, &az, e);
                            for a in 0..ky {
                                let row = at(y, &ay, a);
                                for b in 0..kx {
                                    let weight = kernel[(((o * i + c) * kz + e) * ky + a) * kx + b];
                                    let value = match (depth, row, at(x, &ax, b)) {
                                        (Some(f), Some(r), Some(q)) => input[((c * d + f) * h + r) * w + q],
                                        _ => 0.0,
                                    };
                                    sum += value * weight;
                                }
                            }
                        }
                    }
                    output[((o * oz + z) * oy + y) * ox + x] = sum;
                }
            }
        }
    }
}

/// Where tap k comes from, if it reaches position p.
fn from(p: usize, (a, s): &(Axis, Along), k: usize) -> Option<usize> {
    let t = p as i64 + s.begin - k as i64 * a.dilation as i64;
    let s = a.stride as i64;
    (t >= 0 && t % s == 0 && t / s < a.size as i64).then(|| (t / s) as usize)
}

fn transposed<const THREE: bool>(l: &Layer, s: &Shape, input: &[f32], kernel: &[f32], output: &mut [f32]) {
    let Spatial { axes: [az, ay, ax], kernel: [kz, ky, kx], size: [d, h, w], out: [oz, oy, ox] } = spatial::<THREE>(l, s);
    let (i, outs) = (l.i as usize, l.o as usize);
    for o in 0..outs {
        for z in 0..oz {
            for y in 0..oy {
                for x in 0..ox {
                    let mut sum = 0.0f32;
                    for c in 0..i {
                        for e in 0..kz {
                            let Some(f) = from(z, &az, e) else { continue };
                            for a in 0..ky {
                                let Some(r) = from(y, &ay, a) else { continue };
                                for b in 0..kx {
                                    let Some(q) = from(x, &ax, b) else { continue };
                                    let weight = kernel[(((c * outs + o) * kz + e) * ky + a) * kx + b];
                                    sum += input[((c * d + f) * h + r) * w + q] * weight;
                                }
                            }
                        }
                    }
                    output[((o * oz + z) * oy + y) * ox + x] = sum;
                }
            }
        }
    }
}

fn max_pool<const THREE: bool>(l: &Layer, s: &Shape, input: &[f32], values: &mut [f32], indices: &mut [i64]) {
    let Spatial { axes: [az, ay, ax], kernel: [kz, ky, kx], size: [d, h, w], out: [oz, oy, ox] } = spatial::<THREE>(l, s);
    for c in 0..l.c as usize {
        for z in 0..oz {
            for y in 0..oy {
                for x in 0..ox {
                    let mut best: Option<(f32, usize)> = None;
                    for e in 0..kz {
                        let Some(f) = at(z, &az, e) else { continue };
                        for a in 0..ky {
                            let Some(r) = at(y, &ay, a) else { continue };
                            for b in 0..kx {
                                let Some(q) = at(x, &ax, b) else { continue };
                                let place = ((c * d + f) * h + r) * w + q;
                                if best.is_none_or(|(v, _)| v < input[place]) {
                                    best = Some((input[place], place));
                                }
                            }
                        }
                    }
                    let (v, p) = best.expect("no window is empty");
                    values[((c * oz + z) * oy + y) * ox + x] = v;
                    indices[((c * oz + z) * oy + y) * ox + x] = p as i64;
                }
            }
        }
    }
}

fn loops<const THREE: bool>(call: &Call, out: &mut Outputs) {
    let (l, s) = (&call.layer, &call.shape);
    match l.op {
        Op::Convolution => convolution::<THREE>(l, s, &call.input, &call.kernel, &mut out.values),
        Op::Transposed => transposed::<THREE>(l, s, &call.input, &call.kernel, &mut out.values),
        Op::MaxPool => max_pool::<THREE>(l, s, &call.input, &mut out.values, &mut out.indices),
    }
}

pub fn plain_rust(call: &Call, out: &mut Outputs) {
    if call.layer.axes == 3 { loops::<true>(call, out) } else { loops::<false>(call, out) }
}

// ---- C

#[repr(C)]
struct CAxis {
    size: i32,
    kernel: i32,
    stride: i32,
    dilation: i32,
    begin: i32,
    out: i32,
}

impl CAxis {
    fn new(a: &Axis, s: &Along) -> Self {
        let [size, kernel, stride, dilation] = [a.size, a.kernel, a.stride, a.dilation].map(|v| v as i32);
        CAxis { size, kernel, stride, dilation, begin: s.begin as i32, out: s.out as i32 }
    }
}

#[repr(C)]
struct CCall {
    op: i32,
    axes: i32,
    channels: i32,
    outs: i32,
    spatial: [CAxis; 3],
}

type CRun = unsafe extern "C" fn(*const CCall, *const f32, *const f32, *mut f32, *mut i64);

extern "C" {
    fn baseline_o2(call: *const CCall, input: *const f32, kernel: *const f32, output: *mut f32, indices: *mut i64);
    fn baseline_o3(call: *const CCall, input: *const f32, kernel: *const f32, output: *mut f32, indices: *mut i64);
    fn baseline_rows(call: *const CCall, input: *const f32, kernel: *const f32, output: *mut f32, indices: *mut i64);
}

fn in_c(run: CRun, call: &Call, out: &mut Outputs) {
    let (l, s) = (&call.layer, &call.shape);
    let lengths = [call.input.len(), call.kernel.len(), out.values.len(), out.indices.len()].map(|n| n as u64);
    assert_eq!(lengths, [s.inputs, s.weights, s.outputs, if l.op == Op::MaxPool { s.outputs } else { 0 }]);
    let spatial = [Z, Y, X].map(|d| CAxis::new(&l.spatial[d], &s.along[d]));
    let c = CCall { op: l.op as i32, axes: l.axes as i32, channels: l.c as i32, outs: l.o as i32, spatial };
    // The lengths are what the sizes of an accepted call come to, and the C loops stay within these.
    unsafe { run(&c, call.input.as_ptr(), call.kernel.as_ptr(), out.values.as_mut_ptr(), out.indices.as_mut_ptr()) }
}

pub fn c_o2(call: &Call, out: &mut Outputs) {
    in_c(baseline_o2, call, out)
}

pub fn c_o3(call: &Call, out: &mut Outputs) {
    in_c(baseline_o3, call, out)
}

/// The limit: each tap over a whole row of outputs. Not for pooling, which has the loops of the other two.
pub fn c_rows(call: &Call, out: &mut Outputs) {
    in_c(baseline_rows, call, out)
}
