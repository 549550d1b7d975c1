//! Compares the static library with the reference on generated calls, bit for bit, buffers of refused calls included.
//! usage: differential [CALLS] [SEED]      (100,000 calls and seed 1 by default)
use kozamyure::answers::{self, Answer, LengthsAnswer, Part, ShapeAnswer, Written};
use kozamyure_tests::functions::{profiles, sums};
use kozamyure_tests::generate::{self, Kind, Pick, Random};
use kozamyure_tests::reference::{self, Along, AutoPad, Axis, Layer, Op, Profile, Refusal, Rounding, Shape, Sum, X, Y, Z};
use std::collections::{BTreeMap, BTreeSet};
use std::process::ExitCode;

/// Numbers that every run must see, each at least this often in 100,000 calls.
const SEEN: [(u32, u64); 14] = [
    (0, 20_000), (1, 300), (2, 300), (3, 300), (4, 100), (5, 300), (6, 100), (7, 300), (8, 300), (9, 300), (20, 300), (21, 300), (22, 100), (23, 100),
];

/// Rows of outputs, strides and dilations along X up to these numbers: a run of LONG_RUN calls or more must see each three of them with both convolutions.
const ROWS: [u64; 3] = [40, 4, 3];
const LONG_RUN: u64 = 150_000;

/// The largest tensor.
const LARGEST: usize = 16_777_216;

#[derive(Default)]
struct Counts {
    by_number: BTreeMap<u32, u64>,
    whole: u64,
    exact: u64,
    outputs: u64,
    rows: [BTreeSet<[u64; 3]>; 2],
    peaks: u64,
    rewritten: u64,
    /// Planes, by what they are.
    planes: BTreeMap<&'static str, u64>,
    largest: u64,
    chosen_taps: u64,
    /// Calls with three axes, by operator and number.
    three_axes: BTreeMap<(&'static str, u32), u64>,
    /// Tensors that were refused with 9, by what they are and how many of their elements are bad.
    bad: BTreeMap<(&'static str, &'static str), u64>,
    /// Calls of max pooling with valid and ceil, by what they are beside floor.
    valid_ceil: BTreeMap<&'static str, u64>,
    /// Calls of max pooling with ceil_torch, by what they are beside ceil.
    ceil_torch: BTreeMap<&'static str, u64>,
    /// Accepted calls of max pooling, by version.
    accepted: BTreeMap<u64, u64>,
    /// Accepted convolutions, by an axis and how the taps of some output lie along it.
    windows: BTreeMap<(&'static str, &'static str), u64>,
    /// Accepted convolutions with explicit pads, by what they have.
    pads: BTreeMap<&'static str, u64>,
    /// Their rows in which some output has no tap inside the input's columns: the outputs, and whether the stride is above 1.
    rows_outside: BTreeSet<(u64, bool)>,
    /// Accepted convolutions, by what their halved sums are beside the running ones.
    halved: BTreeMap<&'static str, u64>,
    /// The numbers of their taps.
    taps: BTreeSet<u64>,
    /// Sheets that begin with `version=` and were refused, by the line.
    refused_lines: BTreeMap<u32, u64>,
    failures: u64,
}

/// What valid with ceil is beside valid with floor: each must be seen.
const VALID_CEIL: [&str; 4] = ["the same size", "a larger size", "7 in place of 0", "5 with both"];

/// What ceil_torch is beside ceil: each must be seen.
const CEIL_TORCH: [&str; 6] = ["ceil's sizes", "a window less", "a window less with valid", "7 with ceil's sizes", "7 with a window less", "5"];

/// The axes, and how the taps of an output can lie along one: each must be seen on each.
const AXES: [(usize, &str); 3] = [(Z, "Z"), (Y, "Y"), (X, "X")];
const WINDOWS: [&str; 6] =
    ["all inside", "cut at the beginning", "cut at the end", "cut at both ends", "none inside, all on one side", "none inside, some on both sides"];

/// What a convolution with explicit pads has: each must be seen.
const PADS: [&str; 11] = [
    "a pad of 64 or more",
    "a pad of 512 or more",
    "a pad at one end alone",
    "pads and a stride above 1",
    "pads and a dilation above 1",
    "an output with no tap inside",
    "at most one output in ten with a tap inside",
    "no output with a tap inside",
    "a row of more than 40 outputs, some with no tap inside",
    "products that all are -0",
    "products that all are -0 inside and +0 outside",
];

/// What halved sums are beside running ones: each must be seen.
const HALVED: [&str; 5] = ["the same bits", "other bits", "other bits of whole numbers", "other bits and some tap outside", "other bits and 4,096 taps"];

/// The lines of a sheet with a version line, and the line after the last: each must be seen refused.
const VERSION_LINES: [u32; 14] = [1, 2, 3, 4, 5, 6, 7, 8, 9, 10, 11, 12, 13, 14];

/// What is refused with 9, and with how many bad elements: each of them with each must be seen.
const BAD: [&str; 4] = ["input", "kernel", "input before a bad kernel", "plane"];
const HOW_MANY: [&str; 4] = ["one", "several", "all", "some of 16,777,216"];

/// What a plane is: each must be seen.
const PLANES: [&str; 4] = ["refused", "given", "given at a depth above 0", "given of more than 16,777,216 elements"];

/// The operators with the numbers that a call with three axes comes back with: each must be seen.
const THREE_AXES: [(Op, &str, [u32; 13]); 3] = [
    (Op::Convolution, "convolution", [0, 1, 2, 3, 4, 5, 6, 8, 9, 20, 21, 22, 23]),
    (Op::Transposed, "transposed", [0, 1, 2, 3, 4, 5, 6, 8, 9, 20, 21, 22, 23]),
    (Op::MaxPool, "maxpool", [0, 1, 2, 4, 5, 6, 7, 8, 9, 20, 21, 22, 23]),
];

impl Counts {
    fn fail(&mut self, what: &str, sheet: &[u8], detail: String) {
        self.failures += 1;
        if self.failures <= 5 {
            eprintln!("FAILED: {what}: {detail}\nsheet:\n{}", String::from_utf8_lossy(sheet));
        }
    }

    /// The tensor that a convolution is refused for, if its number is 9.
    fn see_refused(&mut self, expected: &Answer, call: &Call) {
        let [input, kernel, before_kernel, _] = BAD;
        match expected.tensor {
            _ if expected.number != 9 => {}
            0 if reference::elements(1, &call.kernel).is_err() => self.see_bad(before_kernel, expected.bad, call.input.len().max(call.kernel.len())),
            0 => self.see_bad(input, expected.bad, call.input.len()),
            _ => self.see_bad(kernel, expected.bad, call.kernel.len()),
        }
    }

    /// A tensor that was refused with 9.
    fn see_bad(&mut self, what: &'static str, bad: usize, len: usize) {
        let [one, several, all, large] = HOW_MANY;
        let how_many = match bad {
            _ if len == LARGEST => large,
            1 => one,
            _ if bad == len => all,
            _ => several,
        };
        *self.bad.entry((what, how_many)).or_default() += 1;
    }

    /// A layer of max pooling with valid and ceil; one that another number refuses does not count.
    fn see_valid_ceil(&mut self, l: &Layer) {
        let [same, larger, empty, unfit] = VALID_CEIL;
        let floor = Layer { rounding: Rounding::Floor, ..*l };
        let outputs = |l: &Layer| reference::judge(Op::MaxPool, l).map(|s| s.outputs).map_err(|e| e.number);
        let what = match (outputs(l), outputs(&floor)) {
            (Ok(n), Ok(m)) if n == m => same,
            (Ok(_), Ok(_)) => larger,
            (Err(7), Ok(_)) => empty,
            (Err(5), Err(5)) => unfit,
            _ => return,
        };
        *self.valid_ceil.entry(what).or_default() += 1;
    }

    /// A layer of max pooling with ceil_torch; one that another number refuses does not count.
    fn see_ceil_torch(&mut self, l: &Layer) {
        let [same, less, less_with_valid, empty, less_and_empty, unfit] = CEIL_TORCH;
        let sizes = |rounding| l.spatial.map(|a| reference::size_along(Op::MaxPool, l.auto_pad, rounding, &a));
        let fewer = || sizes(Rounding::CeilTorch) != sizes(Rounding::Ceil);
        let what = match reference::judge(Op::MaxPool, l).map_err(|e| e.number) {
            Ok(_) if fewer() => if l.auto_pad == AutoPad::Valid { less_with_valid } else { less },
            Ok(_) => same,
            Err(7) if fewer() => less_and_empty,
            Err(7) => empty,
            Err(5) => unfit,
            Err(_) => return,
        };
        *self.ceil_torch.entry(what).or_default() += 1;
    }

    /// A call of max pooling with a layer of its own.
    fn see_pooling(&mut self, l: &Layer, number: u32) {
        match l.rounding {
            Rounding::Ceil if l.auto_pad == AutoPad::Valid => self.see_valid_ceil(l),
            Rounding::CeilTorch => self.see_ceil_torch(l),
            _ => {}
        }
        if number == 0 {
            *self.accepted.entry(l.version).or_default() += 1;
        }
    }

    /// The rows of an accepted call. With one tap a dilation means nothing, so such a kernel does not count.
    fn see_rows(&mut self, l: &Layer, shape: &Shape) {
        let x = l.spatial[X];
        let row = [shape.along[X].out as u64, x.stride, x.dilation];
        if x.kernel > 1 && row.iter().zip(ROWS).all(|(v, most)| *v <= most) {
            self.rows[usize::from(l.op == Op::Transposed)].insert(row);
        }
    }

    /// An accepted convolution, by how the taps of its outputs lie along each axis.
    fn see_windows(&mut self, l: &Layer, shape: &Shape) {
        for (d, axis) in AXES.into_iter().skip(3 - l.axes as usize) {
            let (a, s) = (&l.spatial[d], &shape.along[d]);
            let windows: BTreeSet<_> = (0..s.out as u64).map(|p| window(a, s, p)).collect();
            for what in windows {
                *self.windows.entry((axis, what)).or_default() += 1;
            }
        }
    }

    /// An accepted convolution with explicit pads.
    fn see_pads(&mut self, l: &Layer, shape: &Shape, call: &Call) {
        let padded = || l.used().iter().filter(|a| a.begin + a.end > 0);
        let Some(largest) = padded().map(|a| a.begin.max(a.end)).max() else { return };
        let out = shape.along.map(|s| s.out as u64);
        let reached = [Z, Y, X].map(|d| (0..out[d]).filter(|p| reference::taps_inside(&l.spatial[d], &shape.along[d], *p) > 0).count() as u64);
        let (all, with_tap): (u64, u64) = (out.iter().product(), reached.iter().product());
        let (inside_and_outside, row_outside) = (with_tap > 0 && with_tap < all, reached[X] < out[X]);
        let has = [
            largest >= 64,
            largest >= 512,
            padded().any(|a| a.begin == 0 || a.end == 0),
            padded().any(|a| a.stride > 1),
            padded().any(|a| a.dilation > 1 && a.kernel > 1),
            with_tap < all,
            with_tap > 0 && with_tap * 10 <= all,
            with_tap == 0,
            row_outside && out[X] > ROWS[0],
            inside_and_outside && minus_zeros(call, true),
            inside_and_outside && minus_zeros(call, false),
        ];
        for (what, _) in PADS.into_iter().zip(has).filter(|(_, has)| *has) {
            *self.pads.entry(what).or_default() += 1;
        }
        if row_outside && out[X] <= ROWS[0] {
            self.rows_outside.insert((out[X], l.spatial[X].stride > 1));
        }
    }

    /// An accepted convolution, by what its sums are in the two profiles.
    fn see_halved(&mut self, l: &Layer, shape: &Shape, kind: Kind, sums: &[Sum]) {
        let other = sums.iter().any(|s| s.value(Profile::Halved).to_bits() != s.value(Profile::Running).to_bits());
        let outside = || l.spatial.iter().zip(&shape.along).any(|(a, s)| (0..s.out as u64).any(|p| reference::taps_inside(a, s, p) < a.kernel));
        let has = [!other, other, other && kind == Kind::Whole, other && outside(), other && shape.taps == 4096];
        for (what, _) in HALVED.into_iter().zip(has).filter(|(_, has)| *has) {
            *self.halved.entry(what).or_default() += 1;
        }
        self.taps.insert(shape.taps);
    }

    fn see_three_axes(&mut self, op: Op, number: u32) {
        let (_, name, _) = THREE_AXES.iter().find(|(of, ..)| *of == op).expect("every operator is there");
        *self.three_axes.entry((name, number)).or_default() += 1;
    }

    fn see_plane(&mut self, given: bool, pick: &Pick) {
        let [refused, small, deep, large] = PLANES;
        let what = if pick.len > LARGEST {
            large
        } else if pick.depth > 0 {
            deep
        } else {
            small
        };
        *self.planes.entry(if given { what } else { refused }).or_default() += 1;
    }
}

/// How the taps of output p lie along an axis.
fn window(a: &Axis, s: &Along, p: u64) -> &'static str {
    let [all, cut_at_beginning, cut_at_end, cut_at_both, one_side, both_sides] = WINDOWS;
    let before = reference::tap_position(a, s, p, 0) < 0;
    let after = reference::tap_position(a, s, p, a.kernel - 1) >= a.size as i64;
    match (before, after) {
        (true, true) if reference::taps_inside(a, s, p) == 0 => both_sides,
        (true, true) => cut_at_both,
        (false, false) => all,
        _ if reference::taps_inside(a, s, p) == 0 => one_side,
        (true, false) => cut_at_beginning,
        (false, true) => cut_at_end,
    }
}

/// Whether all products of a call's elements are -0: all weights have one sign and all elements of the input the other, and the largest product rounds to
/// zero. The product of a tap outside, which has the value +0, has its weight's sign.
fn minus_zeros(call: &Call, negative_weights: bool) -> bool {
    let negative = |t: &[f32], is: bool| t.iter().all(|v| v.is_sign_negative() == is);
    let largest = |t: &[f32]| t.iter().fold(0f32, |most, v| most.max(v.abs()));
    negative(&call.kernel, negative_weights) && negative(&call.input, !negative_weights) && largest(&call.input) * largest(&call.kernel) == 0.0
}

/// How often each was seen.
fn times<K: Ord + Copy, const N: usize>(seen: &BTreeMap<K, u64>, each: [K; N]) -> [(K, u64); N] {
    each.map(|what| (what, seen.get(&what).copied().unwrap_or(0)))
}

fn bits(v: &[f32]) -> Vec<u32> {
    v.iter().map(|x| x.to_bits()).collect()
}

fn answer_of(r: Refusal) -> Answer {
    Answer { number: r.number, line: r.line, tensor: r.tensor, place: r.place, bad: r.bad }
}

const DONE: Refusal = Refusal { number: 0, line: 0, tensor: 0, place: 0, bad: 0 };

/// A sheet's layer and its shape, by checks 1 to 7 of its own operator.
type Judged = Result<(Layer, Shape), Refusal>;

/// The shape call: sizes of the output, or the refusal.
fn check_shape(counts: &mut Counts, sheet: &[u8], judged: &Judged) {
    let expected = match judged {
        Ok((l, s)) => {
            let out = s.along.map(|a| a.out as u32);
            ShapeAnswer { number: 0, line: 0, axes: l.axes as u32, n: l.n as u32, c: s.channels as u32, z: out[Z], y: out[Y], x: out[X] }
        }
        Err(r) => ShapeAnswer { number: r.number, line: r.line, axes: 0, n: 0, c: 0, z: 0, y: 0, x: 0 },
    };
    let got = answers::shape(sheet);
    if got != expected {
        counts.fail("shape", sheet, format!("{got:?}, expected {expected:?}"));
    }
}

/// The lengths call: elements of input, kernel and output, or the refusal.
fn check_lengths(counts: &mut Counts, sheet: &[u8], judged: &Judged) {
    let expected = match judged {
        Ok((l, s)) => {
            let kernel = if l.op == Op::MaxPool { 0 } else { s.weights as usize };
            LengthsAnswer { number: 0, line: 0, input: s.inputs as usize, kernel, output: s.outputs as usize }
        }
        Err(r) => LengthsAnswer { number: r.number, line: r.line, input: 0, kernel: 0, output: 0 },
    };
    let got = answers::lengths(sheet);
    if got != expected {
        counts.fail("lengths", sheet, format!("{got:?}, expected {expected:?}"));
    }
}

/// The sheet written back: the same bytes for every sheet that is read, and a short buffer left alone. What the writer refuses of a layer, the reader refuses
/// of its lines.
fn check_rewrite(r: &mut Random, counts: &mut Counts, sheet: &[u8], made_of: &Layer) {
    let room = if r.chance(4) { r.range(0, sheet.len() as u64 + 3) as usize } else { sheet.len() + r.range(0, 4) as usize };
    let before: Vec<u8> = (0..room).map(|_| r.draw() as u8).collect();
    let mut buffer = before.clone();
    let got = answers::rewrite(sheet, &mut buffer);
    let damaged = reference::show_sheet(made_of).as_bytes() != sheet;
    let layer = if damaged { reference::read_sheet(sheet) } else { Ok(*made_of) };
    let written = layer.and_then(|l| reference::write_sheet(&l));
    let mut after = before;
    let expected = match &written {
        Err(e) => Written { number: e.number, line: e.line, length: 0 },
        Ok(text) if room < text.len() => Written { number: 24, line: 0, length: 0 },
        Ok(text) => {
            after[..text.len()].copy_from_slice(text.as_bytes());
            counts.rewritten += 1;
            Written { number: 0, line: 0, length: text.len() }
        }
    };
    if got != expected || buffer != after || written.is_ok_and(|text| text.as_bytes() != sheet) {
        counts.fail("rewrite", sheet, format!("{got:?}, expected {expected:?}"));
    }
}

/// Demand 3, by exact integers.
fn check_whole(counts: &mut Counts, sheet: &[u8], profile: Profile, shape: &Shape, sums: &[Sum], output: &[f32]) {
    let most = i128::from(reference::allowed_distance(profile, shape.taps));
    for (sum, out) in sums.iter().zip(output) {
        counts.whole += 1;
        let near = out.fract() == 0.0 && (*out as i128 - sum.exact).abs() <= most;
        let same = sum.magnitudes > 16_777_216 || *out as i128 == sum.exact;
        counts.exact += u64::from(sum.magnitudes <= 16_777_216);
        if !near || !same {
            counts.fail("demand 3", sheet, format!("{profile:?}: {out} for the exact sum {} of {} taps", sum.exact, shape.taps));
        }
    }
}

struct Call<'a> {
    sheet: &'a [u8],
    layer: Option<&'a Layer>,
    read: Option<Refusal>,
    kind: Kind,
    input: Vec<f32>,
    kernel: Vec<f32>,
    outputs: usize,
}

/// A convolution in one profile, with an output that holds `before` at entry.
fn check_sums(counts: &mut Counts, op: Op, profile: Profile, call: &Call, before: &[f32], result: &Result<(Shape, Vec<Sum>), Refusal>) {
    let mut output = before.to_vec();
    let got = sums(op, profile)(call.sheet, &call.input, &call.kernel, &mut output);
    let (expected, after) = match result {
        Err(e) => (answer_of(*e), bits(before)),
        Ok((_, sums)) => (answer_of(DONE), sums.iter().map(|s| s.value(profile).to_bits()).collect()),
    };
    if got != expected || bits(&output) != after {
        counts.fail("convolution", call.sheet, format!("{op:?}, {profile:?}: {got:?}, expected {expected:?}; output {output:?}"));
    }
    if let Ok((shape, sums)) = result {
        counts.outputs += sums.len() as u64;
        if call.kind == Kind::Whole {
            check_whole(counts, call.sheet, profile, shape, sums, &output);
        }
    }
}

/// A convolution in every profile that its operator has. All come back with one number.
fn check_convolution(r: &mut Random, counts: &mut Counts, op: Op, call: &Call) -> u32 {
    let before: Vec<f32> = (0..call.outputs).map(|_| f32::from_bits(r.draw() as u32)).collect();
    let result = match call.layer {
        None => Err(call.read.expect("a sheet is read or refused")),
        Some(l) => reference::convolve(op, l, &call.input, &call.kernel, call.outputs),
    };
    for profile in profiles(op) {
        check_sums(counts, op, *profile, call, &before, &result);
    }
    let expected = result.as_ref().err().map_or(DONE, |e| *e);
    counts.see_refused(&answer_of(expected), call);
    if let (Some(l), Ok((shape, sums))) = (call.layer, &result) {
        counts.see_rows(l, shape);
        if op == Op::Convolution {
            counts.see_windows(l, shape);
            counts.see_halved(l, shape, call.kind, sums);
        }
        if op == Op::Convolution && l.auto_pad == AutoPad::Explicit {
            counts.see_pads(l, shape, call);
        }
    }
    expected.number
}

fn check_maxpool(r: &mut Random, counts: &mut Counts, call: &Call, indices: usize) -> u32 {
    let before: Vec<f32> = (0..call.outputs).map(|_| f32::from_bits(r.draw() as u32)).collect();
    let places: Vec<i64> = (0..indices).map(|_| r.draw() as i64).collect();
    let (mut values, mut found) = (before.clone(), places.clone());
    let got = answers::maxpool(call.sheet, &call.input, &mut values, &mut found);
    let result = match call.layer {
        None => Err(call.read.expect("a sheet is read or refused")),
        Some(l) => reference::max_pool(l, &call.input, call.outputs, indices),
    };
    let (expected, v, p) = match &result {
        Err(e) => (answer_of(*e), bits(&before), places),
        Ok((v, p)) => (answer_of(DONE), bits(v), p.clone()),
    };
    if expected.number == 9 {
        counts.see_bad("input", expected.bad, call.input.len());
    }
    if got != expected || bits(&values) != v || found != p {
        counts.fail("maxpool", call.sheet, format!("{got:?}, expected {expected:?}; values {values:?}, indices {found:?}"));
    }
    if let Some(l) = call.layer.filter(|l| l.op == Op::MaxPool) {
        counts.see_pooling(l, expected.number);
    }
    counts.outputs += result.map_or(0, |(v, _)| v.len() as u64);
    got.number
}

fn check_peak(r: &mut Random, counts: &mut Counts) {
    let kind = generate::kind(r);
    let (width, height) = (r.range(0, 6) as usize, r.range(0, 6) as usize);
    let len = generate::length(r, (width * height) as u64);
    peak_of(counts, &generate::tensor(r, kind, len), width);
}

fn peak_of(counts: &mut Counts, plane: &[f32], width: usize) {
    let got = answers::peak(plane, width);
    let expected = match reference::find_peak(plane, width) {
        Ok((v, row, column)) => (0, 0, 0, v.to_bits(), row, column),
        Err(e) => (e.number, e.place, e.bad, 0, 0, 0),
    };
    counts.peaks += 1;
    if expected.0 == 9 {
        counts.see_bad("plane", expected.2, plane.len());
    }
    if (got.number, got.place, got.bad, got.value.to_bits(), got.row, got.column) != expected {
        let few = &plane[..plane.len().min(40)];
        counts.fail("peak", b"", format!("{got:?} of {} elements {few:?} with width {width}", plane.len()));
    }
}

/// Which elements of a large tensor are bad: none, the last, one in each thousand, or all.
#[derive(Clone, Copy, PartialEq)]
enum Bad {
    No,
    Last,
    Few,
    All,
}

/// Ones, with bad elements among them.
fn ones(len: usize, bad: Bad) -> Vec<f32> {
    let is_bad = |at: usize| match bad {
        Bad::No => false,
        Bad::Last => at + 1 == len,
        Bad::Few => at % 1000 == 700,
        Bad::All => true,
    };
    (0..len).map(|at| if is_bad(at) { f32::NAN } else { 1.0 }).collect()
}

/// The bad elements of input and kernel in each of the calls with a large tensor.
const LARGE: [(Bad, Bad); 7] = [
    (Bad::No, Bad::No), (Bad::Last, Bad::No), (Bad::Few, Bad::Few), (Bad::All, Bad::All), (Bad::No, Bad::Last), (Bad::No, Bad::Few), (Bad::No, Bad::All),
];

/// Calls with the largest tensors, good and bad ones.
fn check_largest(r: &mut Random, counts: &mut Counts) {
    for layer in generate::largest() {
        let sheet = reference::show_sheet(&layer).into_bytes();
        let shape = reference::judge(layer.op, &layer).expect("a layer at the limit");
        let (inputs, weights, outputs) = (shape.inputs as usize, shape.weights as usize, shape.outputs as usize);
        let call = |input, kernel| Call { sheet: &sheet, layer: Some(&layer), read: None, kind: Kind::Whole, input, kernel, outputs };
        for (of_input, of_kernel) in LARGE {
            match layer.op {
                // Pooling has no kernel that could be bad alone.
                Op::MaxPool if of_input == Bad::No && of_kernel != Bad::No => continue,
                Op::MaxPool => check_maxpool(r, counts, &call(ones(inputs, of_input), Vec::new()), outputs),
                op => check_convolution(r, counts, op, &call(ones(inputs, of_input), ones(weights, of_kernel))),
            };
            counts.largest += 1;
        }
    }
    for bad in [Bad::No, Bad::Last, Bad::Few, Bad::All] {
        peak_of(counts, &ones(LARGEST, bad), 4096);
    }
}

/// Calls with few taps and with the most, of every kind of elements.
fn check_by_taps(r: &mut Random, counts: &mut Counts) {
    for layer in generate::by_taps() {
        let sheet = reference::show_sheet(&layer).into_bytes();
        let shape = reference::judge(layer.op, &layer).expect("a layer with at most 4,096 taps");
        for kind in [Kind::Whole, Kind::Any, Kind::Small] {
            let [input, kernel] = [shape.inputs, shape.weights].map(|len| generate::good_tensor(r, kind, len as usize));
            let call = Call { sheet: &sheet, layer: Some(&layer), read: None, kind, input, kernel, outputs: shape.outputs as usize };
            check_convolution(r, counts, layer.op, &call);
            counts.chosen_taps += 1;
        }
    }
}

/// The plane picker: the part that it tells, and the slice that the bindings give. No element is looked at, so zeros do.
fn check_plane(r: &mut Random, counts: &mut Counts) {
    let pick = generate::pick(r);
    let tensor = vec![0.0; pick.len];
    let found = reference::pick_plane(pick.len, pick.sizes, pick.image, pick.channel, pick.depth);
    counts.see_plane(found.is_some(), &pick);
    // A refusal is the empty part at the start of the tensor.
    let expected = found.clone().and_then(|p| tensor.get(p)).unwrap_or(&tensor[..0]);
    let part = found.map_or(Part { start: 0, length: 0 }, |p| Part { start: p.start, length: p.len() });
    let got = answers::plane(&tensor, pick.sizes, pick.image, pick.channel, pick.depth);
    let plane = kozamyure::plane(&tensor, pick.sizes, pick.image, pick.channel, pick.depth);
    if got != part || !std::ptr::eq(plane, expected) {
        let slices = format!("a slice of {} at {:p} in a tensor at {:p}", plane.len(), plane.as_ptr(), tensor.as_ptr());
        counts.fail("plane", b"", format!("{got:?} and {slices}, expected {part:?} for {pick:?}"));
    }
}

fn one_call(r: &mut Random, counts: &mut Counts) {
    let mut layer = generate::layer(r);
    if r.chance(3) {
        generate::spoil(r, &mut layer);
        if r.chance(6) {
            generate::spoil(r, &mut layer);
        }
    }
    let sheet = generate::sheet(r, &layer);
    let read = reference::read_sheet(&sheet);
    if let (Err(e), true) = (read, sheet.starts_with(b"version=")) {
        *counts.refused_lines.entry(e.line).or_default() += 1;
    }
    let judged = read.and_then(|l| reference::judge(l.op, &l).map(|s| (l, s)));
    check_shape(counts, &sheet, &judged);
    check_lengths(counts, &sheet, &judged);
    if r.chance(8) {
        check_rewrite(r, counts, &sheet, &layer);
    }
    if r.chance(8) {
        check_peak(r, counts);
    }
    if r.chance(8) {
        check_plane(r, counts);
    }
    call_operator(r, counts, &sheet, &read, &layer);
}

/// A call of an operator with the sheet that was made of a layer, unless its tensors are too large to compute often.
fn call_operator(r: &mut Random, counts: &mut Counts, sheet: &[u8], read: &Result<Layer, Refusal>, made_of: &Layer) {
    // The operator of the sheet, seldom another.
    let Layer { op: own, axes, .. } = read.unwrap_or(*made_of);
    let op = if r.chance(30) { r.pick(&[Op::Convolution, Op::Transposed, Op::MaxPool]) } else { own };
    let shape = read.ok().and_then(|l| reference::judge(op, &l).ok());
    let (inputs, weights, outputs) = shape.map_or((3, 2, 4), |s| (s.inputs, s.weights, s.outputs));
    if inputs > 40_000 || weights > 40_000 || outputs * shape.map_or(1, |s| s.taps) > 400_000 {
        // The calls for shape and lengths have checked it.
        return;
    }
    let kind = generate::kind(r);
    let input_len = generate::length(r, inputs);
    let kernel_len = generate::length(r, weights);
    let mut call = Call {
        sheet,
        layer: read.as_ref().ok(),
        read: read.as_ref().err().copied(),
        kind,
        input: generate::tensor(r, kind, input_len),
        kernel: generate::tensor(r, kind, kernel_len),
        outputs: generate::length(r, outputs),
    };
    if r.chance(100) {
        generate::spoil_elements(r, &mut call.input);
        generate::spoil_elements(r, &mut call.kernel);
    }
    let number = match op {
        Op::MaxPool => {
            let indices = generate::length(r, outputs);
            check_maxpool(r, counts, &call, indices)
        }
        _ => check_convolution(r, counts, op, &call),
    };
    *counts.by_number.entry(number).or_default() += 1;
    if axes == 3 {
        counts.see_three_axes(op, number);
    }
}

/// Whether each number came back often enough.
fn report_numbers(counts: &Counts, made: u64) -> bool {
    let numbers: Vec<String> = counts.by_number.iter().map(|(n, c)| format!("{n}: {c}")).collect();
    println!("numbers seen: {}", numbers.join(", "));
    let mut often = true;
    for (number, least) in SEEN {
        let seen = counts.by_number.get(&number).copied().unwrap_or(0);
        if seen * 100_000 < least * made {
            println!("number {number} is too rare: {seen}");
            often = false;
        }
    }
    often
}

/// Whether all of a kind were met, as in a long run they must be.
fn met(all: bool, kind: &str, made: u64) -> bool {
    let missed = made >= LONG_RUN && !all;
    if missed {
        println!("some {kind} were not met");
    }
    !missed
}

/// Whether both convolutions met all rows. Pads and output padding fit an input to every row, so that none is impossible.
fn report_rows(counts: &Counts, made: u64) -> bool {
    let [out, stride, dilation] = ROWS;
    let all = (out * stride * dilation) as usize;
    let [convolution, transposed] = counts.rows.each_ref().map(BTreeSet::len);
    print!("rows of 1 to {out} outputs, strides 1 to {stride}, dilations 1 to {dilation}: ");
    println!("{convolution} of {all} seen by convolution, {transposed} of {all} by transposed");
    met(convolution == all && transposed == all, "rows", made)
}

/// Whether planes were refused and given, at depths and of large tensors too.
fn report_planes(counts: &Counts, made: u64) -> bool {
    let seen = times(&counts.planes, PLANES);
    println!("planes: {}", seen.map(|(what, n)| format!("{what} {n}")).join(", "));
    met(seen.iter().all(|(_, n)| *n > 0), "planes", made)
}

/// Whether each operator was met with three axes and all its numbers.
fn report_three_axes(counts: &Counts, made: u64) -> bool {
    let mut all = true;
    for (_, name, numbers) in THREE_AXES {
        let seen = times(&counts.three_axes, numbers.map(|number| (name, number)));
        println!("numbers seen with three axes, {name}: {}", seen.map(|((_, number), n)| format!("{number}: {n}")).join(", "));
        all &= seen.iter().all(|(_, n)| *n > 0);
    }
    met(all, "calls with three axes", made)
}

/// Whether each tensor was refused with one, several and all elements bad, small and as large as can be.
fn report_bad(counts: &Counts, made: u64) -> bool {
    let mut all = true;
    for what in BAD {
        let seen = times(&counts.bad, HOW_MANY.map(|how_many| (what, how_many)));
        println!("refused with 9, {what}: {}", seen.map(|((_, how_many), n)| format!("{how_many} bad {n}")).join(", "));
        all &= seen.iter().all(|(_, n)| *n > 0);
    }
    met(all, "bad tensors", made)
}

/// Whether accepted convolutions had every kind of window on every axis, and pads with all that they can bring.
fn report_pads(counts: &Counts, made: u64) -> bool {
    let mut all = true;
    for (_, axis) in AXES {
        let seen = times(&counts.windows, WINDOWS.map(|what| (axis, what)));
        println!("convolutions by the taps of some output along {axis}: {}", seen.map(|((_, what), n)| format!("{what} {n}")).join("; "));
        all &= seen.iter().all(|(_, n)| *n > 0);
    }
    let seen = times(&counts.pads, PADS);
    println!("convolutions with pads: {}", seen.map(|(what, n)| format!("{what} {n}")).join("; "));
    let (rows, all_rows) = (counts.rows_outside.len() as u64, 2 * ROWS[0]);
    println!("rows of 1 to {} outputs, some with no tap inside, strides of 1 and above: {rows} of {all_rows} seen", ROWS[0]);
    met(all && rows == all_rows && seen.iter().all(|(_, n)| *n > 0), "convolutions with pads", made)
}

/// Whether convolutions were met with all that halved sums can be beside running ones.
fn report_halved(counts: &Counts, made: u64) -> bool {
    let seen = times(&counts.halved, HALVED);
    println!("halved sums beside running ones: {}", seen.map(|(what, n)| format!("{what} {n}")).join("; "));
    println!("convolutions with {} numbers of taps", counts.taps.len());
    met(seen.iter().all(|(_, n)| *n > 0), "halved sums", made)
}

/// Whether valid with ceil was met with all that it can be beside floor.
fn report_valid_ceil(counts: &Counts, made: u64) -> bool {
    let seen = times(&counts.valid_ceil, VALID_CEIL);
    println!("valid with ceil beside floor: {}", seen.map(|(what, n)| format!("{what} {n}")).join(", "));
    met(seen.iter().all(|(_, n)| *n > 0), "calls of valid with ceil", made)
}

/// Whether ceil_torch was met with all that it can be beside ceil.
fn report_ceil_torch(counts: &Counts, made: u64) -> bool {
    let seen = times(&counts.ceil_torch, CEIL_TORCH);
    println!("ceil_torch beside ceil: {}", seen.map(|(what, n)| format!("{what} {n}")).join(", "));
    met(seen.iter().all(|(_, n)| *n > 0), "calls of ceil_torch", made)
}

/// Whether both versions were accepted, and each line of a sheet with a version line refused.
fn report_versions(counts: &Counts, made: u64) -> bool {
    let (accepted, refused) = (times(&counts.accepted, [8, 14]), times(&counts.refused_lines, VERSION_LINES));
    println!("accepted calls of max pooling: {}", accepted.map(|(version, n)| format!("version {version} {n}")).join(", "));
    println!("refused lines of sheets with a version line: {}", refused.map(|(line, n)| format!("{line}: {n}")).join(", "));
    let counted = accepted.iter().map(|(_, n)| n).chain(refused.iter().map(|(_, n)| n));
    met(counted.min() > Some(&0), "versions or lines", made)
}

fn main() -> ExitCode {
    let args: Vec<u64> = std::env::args().skip(1).map(|a| a.parse().expect("numbers: CALLS SEED")).collect();
    let calls = args.first().copied().unwrap_or(100_000);
    let mut r = Random::new(args.get(1).copied().unwrap_or(1));
    let mut counts = Counts::default();
    let mut made = 0;
    while made < calls {
        one_call(&mut r, &mut counts);
        made = counts.by_number.values().sum();
    }
    check_largest(&mut r, &mut counts);
    check_by_taps(&mut r, &mut counts);
    println!("{made} calls, {} with the largest tensors and {} with chosen numbers of taps", counts.largest, counts.chosen_taps);
    println!("{} outputs, {} of them whole, {} in the exact case", counts.outputs, counts.whole, counts.exact);
    println!("{} peaks, {} sheets written back", counts.peaks, counts.rewritten);
    let reports = [
        report_numbers,
        report_rows,
        report_pads,
        report_halved,
        report_planes,
        report_bad,
        report_valid_ceil,
        report_ceil_torch,
        report_versions,
        report_three_axes,
    ];
    let all_seen = reports.map(|report| report(&counts, made)).iter().all(|seen| *seen);
    if counts.failures > 0 {
        println!("{} comparisons FAILED", counts.failures);
    }
    if !all_seen || counts.failures > 0 {
        return ExitCode::FAILURE;
    }
    println!("all agree");
    ExitCode::SUCCESS
}
