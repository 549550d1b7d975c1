//! Document 01 in plain Rust, written from the document alone: the sheet, checks 1 to 9, sums and windows, planes and peaks. Clear rather than fast.
use std::ops::Range;

#[derive(Clone, Copy, Debug, PartialEq, Eq)]
pub enum Op {
    Convolution,
    Transposed,
    MaxPool,
}

#[derive(Clone, Copy, Debug, PartialEq, Eq)]
pub enum AutoPad {
    Explicit,
    SameUpper,
    SameLower,
    Valid,
}

#[derive(Clone, Copy, Debug, PartialEq, Eq)]
pub enum Rounding {
    Floor,
    Ceil,
    CeilTorch,
}

/// In which order a convolution adds its products: tap by tap, or in halves.
#[derive(Clone, Copy, Debug, PartialEq, Eq)]
pub enum Profile {
    Running,
    Halved,
}

pub const PROFILES: [Profile; 2] = [Profile::Running, Profile::Halved];

/// One spatial axis: input, kernel, stride, dilation, pads and output padding.
#[derive(Clone, Copy, Debug, PartialEq, Eq)]
pub struct Axis {
    pub size: u64,
    pub kernel: u64,
    pub stride: u64,
    pub dilation: u64,
    pub begin: u64,
    pub end: u64,
    pub extra: u64,
}

pub const UNUSED: Axis = Axis { size: 1, kernel: 1, stride: 1, dilation: 1, begin: 0, end: 0, extra: 0 };

/// The places of the three axes in every array of them.
pub const Z: usize = 0;
pub const Y: usize = 1;
pub const X: usize = 2;

#[derive(Clone, Copy, Debug, PartialEq, Eq)]
pub struct Layer {
    /// 8 or, for MaxPool-14, 14.
    pub version: u64,
    pub op: Op,
    pub axes: u64,
    pub n: u64,
    pub c: u64,
    pub g: u64,
    pub o: u64,
    pub i: u64,
    /// Z, Y and X, of which the last `axes` are used.
    pub spatial: [Axis; 3],
    pub auto_pad: AutoPad,
    pub rounding: Rounding,
    pub axis: i64,
}

impl Layer {
    /// A layer with every size 1 and every attribute at its default.
    pub fn new(op: Op, axes: u64) -> Layer {
        let (spatial, auto_pad, rounding) = ([UNUSED; 3], AutoPad::Explicit, Rounding::Floor);
        Layer { version: 8, op, axes, n: 1, c: 1, g: 1, o: 1, i: 1, spatial, auto_pad, rounding, axis: 0 }
    }

    pub fn used(&self) -> &[Axis] {
        &self.spatial[3 - self.axes as usize..]
    }

    pub fn used_mut(&mut self) -> &mut [Axis] {
        &mut self.spatial[3 - self.axes as usize..]
    }

    /// Input sizes along Z, Y and X.
    fn sizes(&self) -> [u64; 3] {
        self.spatial.map(|a| a.size)
    }

    fn kernels(&self) -> [u64; 3] {
        self.spatial.map(|a| a.kernel)
    }
}

/// A number of the table, with the line (20 to 23), or the tensor, its first bad place and the number of its bad elements (9).
#[derive(Clone, Copy, Debug, PartialEq, Eq)]
pub struct Refusal {
    pub number: u32,
    pub line: u32,
    pub tensor: u32,
    pub place: usize,
    pub bad: usize,
}

pub fn refuse(number: u32) -> Refusal {
    Refusal { number, line: 0, tensor: 0, place: 0, bad: 0 }
}

// ---- the sheet

/// The keys of the lines in their order. Only a sheet for MaxPool-14 has the first.
const KEYS: [&str; 13] = [
    "version", "op", "axes", "input", "kernel", "strides", "dilations", "auto_pad", "pads_begin", "pads_end", "output_padding", "rounding", "axis",
];
const OPS: [(&str, Op); 3] = [("convolution", Op::Convolution), ("transposed", Op::Transposed), ("maxpool", Op::MaxPool)];
const AUTO_PADS: [(&str, AutoPad); 4] =
    [("explicit", AutoPad::Explicit), ("same_upper", AutoPad::SameUpper), ("same_lower", AutoPad::SameLower), ("valid", AutoPad::Valid)];
const ROUNDINGS: [(&str, Rounding); 3] = [("floor", Rounding::Floor), ("ceil", Rounding::Ceil), ("ceil_torch", Rounding::CeilTorch)];

/// What a word means, or number 22.
fn meaning<T: Copy>(words: &[(&str, T)], text: &[u8]) -> Result<T, u32> {
    words.iter().find(|(word, _)| word.as_bytes() == text).map(|(_, meant)| *meant).ok_or(22)
}

fn word<T: PartialEq>(words: &[(&str, T)], meant: T) -> String {
    words.iter().find(|(_, m)| *m == meant).expect("every meaning has a word").0.to_string()
}

fn number(text: &[u8]) -> Option<u64> {
    if text.is_empty() || !text.iter().all(u8::is_ascii_digit) || (text.len() > 1 && text[0] == b'0') || text.len() > 10 {
        return None;
    }
    let value = text.iter().fold(0u64, |v, b| v * 10 + u64::from(b - b'0'));
    (value <= u64::from(u32::MAX)).then_some(value)
}

fn axis_value(text: &[u8]) -> Option<i64> {
    match text {
        [d @ b'0'..=b'9'] => Some(i64::from(d - b'0')),
        [b'-', d @ b'1'..=b'9'] => Some(-i64::from(d - b'0')),
        _ => None,
    }
}

/// The fields that a list shows, in its order; none for a line that is no list.
fn list<'a>(l: &'a mut Layer, key: &str) -> Vec<&'a mut u64> {
    let unused = 3 - l.axes.min(3) as usize;
    let head = match (key, l.op) {
        ("input", _) => vec![&mut l.n, &mut l.c],
        ("kernel", Op::Convolution) => vec![&mut l.g, &mut l.o, &mut l.i],
        ("kernel", Op::Transposed) => vec![&mut l.g, &mut l.i, &mut l.o],
        _ => vec![],
    };
    let along = l.spatial[unused..].iter_mut().filter_map(|a| match key {
        "input" => Some(&mut a.size),
        "kernel" => Some(&mut a.kernel),
        "strides" => Some(&mut a.stride),
        "dilations" => Some(&mut a.dilation),
        "pads_begin" => Some(&mut a.begin),
        "pads_end" => Some(&mut a.end),
        "output_padding" => Some(&mut a.extra),
        _ => None,
    });
    head.into_iter().chain(along).collect()
}

/// The numbers of a list.
fn numbers(mut l: Layer, key: &str) -> Vec<u64> {
    list(&mut l, key).iter().map(|v| **v).collect()
}

/// The numbers of a list into the layer, or number 21.
fn set_list(l: &mut Layer, key: &str, text: &[u8]) -> Result<(), u32> {
    let values: Option<Vec<u64>> = text.split(|b| *b == b',').map(number).collect();
    let fields = list(l, key);
    let values = values.filter(|v| v.len() == fields.len()).ok_or(21u32)?;
    for (field, value) in fields.into_iter().zip(values) {
        *field = value;
    }
    Ok(())
}

/// The number of a line that no sheet may have as the layer has it: 21, then 22, then 23. Reader and writer refuse it alike.
fn line_fault(l: &Layer, key: &str) -> Result<(), u32> {
    let (pool, transposed) = (l.op == Op::MaxPool, l.op == Op::Transposed);
    match key {
        _ if numbers(*l, key).iter().any(|v| *v > u64::from(u32::MAX)) => Err(21),
        "version" if l.version != 14 => Err(21),
        "op" if l.version == 14 && !pool => Err(23),
        "axes" if !within(l.axes, 1, 3) => Err(21),
        "output_padding" if !transposed && l.spatial.iter().any(|a| a.extra != 0) => Err(23),
        "rounding" if l.version == 8 && l.rounding == Rounding::CeilTorch => Err(22),
        "rounding" if !pool && l.rounding != Rounding::Floor => Err(23),
        "axis" if !(-9..=9).contains(&l.axis) => Err(21),
        "axis" if !pool && l.axis != 0 => Err(23),
        _ => Ok(()),
    }
}

/// One line's value into the layer, or its number.
fn set_line(l: &mut Layer, key: &str, text: &[u8]) -> Result<(), u32> {
    match key {
        "version" => l.version = number(text).ok_or(21u32)?,
        "op" => l.op = meaning(&OPS, text)?,
        "axes" => l.axes = number(text).ok_or(21u32)?,
        "auto_pad" => l.auto_pad = meaning(&AUTO_PADS, text)?,
        "rounding" => l.rounding = meaning(&ROUNDINGS, text)?,
        "axis" => l.axis = axis_value(text).ok_or(21u32)?,
        _ => set_list(l, key, text)?,
    }
    line_fault(l, key)
}

/// The keys of the lines that a sheet has, and with each its line's number.
fn lines(version_line: bool) -> impl Iterator<Item = (&'static str, u32)> {
    KEYS.into_iter().skip(usize::from(!version_line)).zip(1..)
}

/// The layer, or the number and the line of the first bad line.
pub fn read_sheet(sheet: &[u8]) -> Result<Layer, Refusal> {
    let mut rest = sheet;
    let mut layer = Layer::new(Op::Convolution, 1);
    let version_line = sheet.starts_with(b"version=");
    for (key, line) in lines(version_line) {
        let bad = |number: u32| Refusal { line, ..refuse(number) };
        let head = format!("{key}=");
        let end = rest.iter().position(|b| *b == 10);
        let (Some(end), true) = (end, rest.starts_with(head.as_bytes())) else {
            return Err(bad(20));
        };
        // A key holds no line end, so the value starts before it.
        set_line(&mut layer, key, &rest[head.len()..end]).map_err(bad)?;
        rest = &rest[end + 1..];
    }
    let after = if version_line { 14 } else { 13 };
    if rest.is_empty() { Ok(layer) } else { Err(Refusal { line: after, ..refuse(20) }) }
}

/// The lines of a layer, also where no sheet may have one of them.
pub fn show_sheet(l: &Layer) -> String {
    let value = |key: &str| match key {
        "version" => l.version.to_string(),
        "op" => word(&OPS, l.op),
        "axes" => l.axes.to_string(),
        "auto_pad" => word(&AUTO_PADS, l.auto_pad),
        "rounding" => word(&ROUNDINGS, l.rounding),
        "axis" => l.axis.to_string(),
        _ => numbers(*l, key).iter().map(u64::to_string).collect::<Vec<_>>().join(","),
    };
    lines(l.version != 8).map(|(key, _)| format!("{key}={}\n", value(key))).collect()
}

/// The writer, for a layer whose unused sizes are at their defaults: its sheet, or the number and the line of the first bad line.
pub fn write_sheet(l: &Layer) -> Result<String, Refusal> {
    for (key, line) in lines(l.version != 8) {
        line_fault(l, key).map_err(|number| Refusal { line, ..refuse(number) })?;
    }
    Ok(show_sheet(l))
}

// ---- checks 1 to 7

/// Where one axis comes to: the padding at its beginning and the output size.
#[derive(Clone, Copy, Debug, PartialEq, Eq)]
pub struct Along {
    pub begin: i64,
    pub out: i64,
}

#[derive(Clone, Copy, Debug, PartialEq, Eq)]
pub struct Shape {
    /// Along Z, Y and X.
    pub along: [Along; 3],
    pub taps: u64,
    pub inputs: u64,
    pub weights: u64,
    pub channels: u64,
    pub outputs: u64,
}

const LARGEST: u128 = 16_777_216;

fn product(v: &[u64]) -> u128 {
    v.iter().fold(1u128, |p, s| p.saturating_mul(u128::from(*s)))
}

fn within(v: u64, least: u64, most: u64) -> bool {
    (least..=most).contains(&v)
}

/// Whether number 1 does not hold.
fn dimensions_ok(op: Op, l: &Layer) -> bool {
    within(l.axes, 1, 3)
        && within(l.n, 1, 16)
        && within(l.c, 1, 1024)
        && l.used().iter().all(|a| within(a.size, 1, 4096) && within(a.kernel, 1, 64))
        && (op == Op::MaxPool || [l.g, l.o, l.i].iter().all(|v| within(*v, 1, 1024)))
}

/// Whether number 2 does not hold.
fn attributes_ok(op: Op, l: &Layer) -> bool {
    let (pool, transposed) = (op == Op::MaxPool, op == Op::Transposed);
    let ignored = l.auto_pad != AutoPad::Explicit;
    let looked_at = l.spatial.map(|a| if ignored { Axis { begin: 0, end: 0, ..a } } else { a });
    let (unused, used) = looked_at.split_at(3 - l.axes as usize);
    let axis_ok = |a: &Axis| {
        let padding = if transposed { 15 } else { 0 };
        within(a.stride, 1, 16) && within(a.dilation, 1, 16) && a.begin <= 1024 && a.end <= 1024 && a.extra <= padding
    };
    let rank = l.axes as i64 + 2;
    let version_ok = match l.version {
        8 => l.rounding != Rounding::CeilTorch,
        14 => pool,
        _ => false,
    };
    l.op == op
        && version_ok
        && used.iter().all(axis_ok)
        && unused.iter().all(|a| *a == UNUSED)
        && !(transposed && matches!(l.auto_pad, AutoPad::SameUpper | AutoPad::SameLower))
        && if pool { (-rank..rank).contains(&l.axis) && (l.g, l.o, l.i) == (1, 1, 1) } else { l.rounding == Rounding::Floor && l.axis == 0 }
}

fn ceil_div(a: i64, b: i64) -> i64 {
    (a + b - 1).div_euclid(b)
}

/// The explicit size of an input n with these pads, k being k'.
fn explicit_size(rounding: Rounding, n: i64, begin: i64, end: i64, k: i64, s: i64) -> i64 {
    let room = n + begin + end - k;
    let ceil = ceil_div(room, s) + 1;
    match rounding {
        Rounding::Floor => room / s + 1,
        // The last window would start at or past the input's end.
        Rounding::CeilTorch if (ceil - 1) * s >= n + begin => ceil - 1,
        Rounding::Ceil | Rounding::CeilTorch => ceil,
    }
}

/// Number 5, or the size along one axis.
pub fn size_along(op: Op, mode: AutoPad, rounding: Rounding, a: &Axis) -> Option<Along> {
    let (n, s) = (a.size as i64, a.stride as i64);
    let k = (a.kernel as i64 - 1) * a.dilation as i64 + 1;
    let (begin, end) = match mode {
        AutoPad::Explicit => (a.begin as i64, a.end as i64),
        AutoPad::Valid => (0, 0),
        _ => {
            let total = ((ceil_div(n, s) - 1) * s + k - n).max(0);
            if mode == AutoPad::SameUpper { (total / 2, total - total / 2) } else { (total - total / 2, total / 2) }
        }
    };
    let rounding = if op == Op::MaxPool { rounding } else { Rounding::Floor };
    let out = match (op, mode) {
        (Op::Transposed, _) => (n - 1) * s + k - begin - end + a.extra as i64,
        (_, AutoPad::Explicit) if n + begin + end < k => return None,
        (_, AutoPad::Valid) if n < k => return None,
        (_, AutoPad::Valid) if rounding == Rounding::Floor => ceil_div(n - k + 1, s),
        (_, AutoPad::Explicit | AutoPad::Valid) => explicit_size(rounding, n, begin, end, k, s),
        (_, AutoPad::SameUpper | AutoPad::SameLower) => ceil_div(n, s),
    };
    (out >= 1).then_some(Along { begin, out })
}

/// Where tap k of output p lies along one axis, inside the input or outside, for convolution and pooling.
pub fn tap_position(a: &Axis, s: &Along, p: u64, k: u64) -> i64 {
    (p * a.stride) as i64 - s.begin + (k * a.dilation) as i64
}

/// The input's place along one axis at tap k of output p, if there is one.
fn tap(op: Op, a: &Axis, s: &Along, p: u64, k: u64) -> Option<u64> {
    let stride = a.stride as i64;
    let back = p as i64 + s.begin - (k * a.dilation) as i64;
    let place = match op {
        Op::Transposed if back.rem_euclid(stride) != 0 => return None,
        Op::Transposed => back.div_euclid(stride),
        _ => tap_position(a, s, p, k),
    };
    (0..a.size as i64).contains(&place).then_some(place as u64)
}

/// How many taps of output p lie inside the input along one axis, for convolution and pooling.
pub fn taps_inside(a: &Axis, s: &Along, p: u64) -> u64 {
    (0..a.kernel).filter(|k| tap(Op::Convolution, a, s, p, *k).is_some()).count() as u64
}

/// Whether some output along the axis has no tap inside: its windows hold no element, whatever the other axes have.
fn misses(a: &Axis, s: &Along) -> bool {
    (0..s.out as u64).any(|p| (0..a.kernel).all(|k| tap(Op::MaxPool, a, s, p, k).is_none()))
}

/// Checks 1 to 7 by the operator that is called.
pub fn judge(op: Op, l: &Layer) -> Result<Shape, Refusal> {
    let check = |number: u32, ok: bool| if ok { Ok(()) } else { Err(refuse(number)) };
    let pool = op == Op::MaxPool;
    check(1, dimensions_ok(op, l))?;
    check(2, attributes_ok(op, l))?;
    check(3, pool || l.c == l.g * l.i)?;
    let (size, kernel) = (product(&l.sizes()), product(&l.kernels()));
    let (taps, inputs, weights) = (u128::from(l.i) * kernel, product(&[l.n, l.c]) * size, product(&[l.g, l.o, l.i]) * kernel);
    check(4, (pool || taps <= 4096) && inputs <= LARGEST && weights <= LARGEST)?;
    let mut along = [Along { begin: 0, out: 0 }; 3];
    for (s, a) in along.iter_mut().zip(&l.spatial) {
        *s = size_along(op, l.auto_pad, l.rounding, a).ok_or(refuse(5))?;
    }
    let channels = if pool { l.c } else { l.g * l.o };
    let outputs = along.iter().fold(product(&[l.n, channels]), |p, s| p * s.out as u128);
    check(6, outputs <= LARGEST)?;
    check(7, !pool || !l.spatial.iter().zip(&along).any(|(a, s)| misses(a, s)))?;
    Ok(Shape { along, taps: taps as u64, inputs: inputs as u64, weights: weights as u64, channels, outputs: outputs as u64 })
}

// ---- checks 8 and 9

fn bad(v: f32) -> bool {
    v.is_nan() || v.abs() > 1_099_511_627_776.0
}

/// Check 9 of a tensor.
pub fn elements(tensor: u32, t: &[f32]) -> Result<(), Refusal> {
    let count = t.iter().filter(|v| bad(**v)).count();
    match t.iter().position(|v| bad(*v)) {
        Some(place) => Err(Refusal { tensor, place, bad: count, ..refuse(9) }),
        None => Ok(()),
    }
}

// ---- places

/// All positions below three sizes, the last rising fastest.
fn positions([a, b, c]: [u64; 3]) -> impl Iterator<Item = [u64; 3]> {
    (0..a).flat_map(move |z| (0..b).flat_map(move |y| (0..c).map(move |x| [z, y, x])))
}

/// The flat place of a position in a row-major tensor.
fn flat(at: [u64; 3], sizes: [u64; 3]) -> usize {
    at.iter().zip(sizes).fold(0, |place, (p, size)| place * size + p) as usize
}

/// The taps of output p, by kz, ky, kx rising: each one's flat place in a channel of the input, if it is inside on every axis.
fn taps_of(l: &Layer, shape: &Shape, p: [u64; 3]) -> Vec<Option<usize>> {
    let place = |k: [u64; 3]| {
        let along = |d: usize| tap(l.op, &l.spatial[d], &shape.along[d], p[d], k[d]);
        Some(flat([along(Z)?, along(Y)?, along(X)?], l.sizes()))
    };
    positions(l.kernels()).map(place).collect()
}

/// The taps of every output of a channel, in row-major order. All channels have the same.
fn all_taps(l: &Layer, shape: &Shape) -> Vec<Vec<Option<usize>>> {
    positions(shape.along.map(|s| s.out as u64)).map(|p| taps_of(l, shape, p)).collect()
}

/// A tensor's parts of these sizes, one after the other.
fn parts(tensor: &[f32], sizes: [u64; 3]) -> Vec<&[f32]> {
    tensor.chunks(product(&sizes) as usize).collect()
}

// ---- the convolutions

/// An output's f32 sum in each profile, and its exact account where every factor is a whole number: the sum and the total of magnitudes.
pub struct Sum {
    running: f32,
    halved: f32,
    pub exact: i128,
    pub magnitudes: i128,
}

impl Sum {
    pub fn value(&self, profile: Profile) -> f32 {
        match profile {
            Profile::Running => self.running,
            Profile::Halved => self.halved,
        }
    }

    fn add(&mut self, value: f32, weight: f32) {
        self.running += value * weight;
        let p = i128::from(value as i64) * i128::from(weight as i64);
        self.exact += p;
        self.magnitudes += p.abs();
    }
}

/// A run of taps is cut in two, the first part having the larger half, each half is summed the same way, and the two results are added; a single tap is its
/// product added to +0, or, outside the input, +0 without a product.
fn halved(product: &impl Fn(usize) -> Option<f32>, first: usize, count: usize) -> f32 {
    if count == 1 {
        return product(first).map_or(0.0, |p| 0.0 + p);
    }
    let (second, larger) = (count / 2, count - count / 2);
    halved(product, first, larger) + halved(product, first + larger, second)
}

/// An output from the input and the weights of each channel that it takes, by i, kz, ky, kx rising. A transposed convolution has no halved sum.
fn sum(op: Op, channels: &[(&[f32], &[f32])], taps: &[Option<usize>]) -> Sum {
    let mut sum = Sum { running: 0.0, halved: f32::NAN, exact: 0, magnitudes: 0 };
    for (input, weights) in channels {
        for (tap, weight) in taps.iter().zip(*weights) {
            match tap {
                Some(place) => sum.add(input[*place], *weight),
                None if op == Op::Convolution => sum.add(0.0, *weight),
                None => {}
            }
        }
    }
    if op == Op::Convolution {
        let product = |k: usize| {
            let ((input, weights), k) = (channels[k / taps.len()], k % taps.len());
            taps[k].map(|place| input[place] * weights[k])
        };
        sum.halved = halved(&product, 0, channels.len() * taps.len());
    }
    sum
}

/// The distance that demand 3 allows for K taps, and of halved sums also K times the smallest h with 2^h >= K.
pub fn allowed_distance(profile: Profile, k: u64) -> u64 {
    let running = (k - 1) * (k + 2) / 2;
    let h = (0..).find(|h| 1u64 << h >= k).expect("there are powers of two above K");
    match profile {
        Profile::Running => running,
        Profile::Halved => running.min(k * h),
    }
}

/// Either convolution: every output in row-major order.
pub fn convolve(op: Op, l: &Layer, input: &[f32], kernel: &[f32], outputs: usize) -> Result<(Shape, Vec<Sum>), Refusal> {
    let shape = judge(op, l)?;
    if (input.len() as u64, kernel.len() as u64, outputs as u64) != (shape.inputs, shape.weights, shape.outputs) {
        return Err(refuse(8));
    }
    elements(0, input)?;
    elements(1, kernel)?;
    let (inputs, weights, taps) = (parts(input, l.sizes()), parts(kernel, l.kernels()), all_taps(l, &shape));
    let mut sums = Vec::with_capacity(outputs);
    for [n, g, o] in positions([l.n, l.g, l.o]) {
        let channel = |i: u64| {
            let weight = if op == Op::Transposed { flat([g, i, o], [l.g, l.i, l.o]) } else { flat([g, o, i], [l.g, l.o, l.i]) };
            (inputs[flat([n, g, i], [l.n, l.g, l.i])], weights[weight])
        };
        let channels: Vec<_> = (0..l.i).map(channel).collect();
        sums.extend(taps.iter().map(|taps| sum(op, &channels, taps)));
    }
    Ok((shape, sums))
}

// ---- pooling

/// What the indices are counted modulo: the product of the dimensions from `axis` on.
fn modulus(l: &Layer) -> u64 {
    let dimensions: Vec<u64> = [l.n, l.c].into_iter().chain(l.used().iter().map(|a| a.size)).collect();
    let from = if l.axis < 0 { l.axis + dimensions.len() as i64 } else { l.axis };
    dimensions[from as usize..].iter().product()
}

/// The best value of a window and its place in the channel: the first of the largest ones.
fn best(input: &[f32], taps: &[Option<usize>]) -> (f32, usize) {
    let mut found: Option<(f32, usize)> = None;
    for place in taps.iter().flatten() {
        if found.is_none_or(|(value, _)| input[*place] > value) {
            found = Some((input[*place], *place));
        }
    }
    found.expect("check 7 leaves no empty window")
}

pub fn max_pool(l: &Layer, input: &[f32], values: usize, indices: usize) -> Result<(Vec<f32>, Vec<i64>), Refusal> {
    let shape = judge(Op::MaxPool, l)?;
    if (input.len() as u64, values as u64, indices as u64) != (shape.inputs, shape.outputs, shape.outputs) {
        return Err(refuse(8));
    }
    elements(0, input)?;
    let (modulus, taps) = (modulus(l), all_taps(l, &shape));
    let (mut best_values, mut places) = (Vec::new(), Vec::new());
    for (channel, input) in parts(input, l.sizes()).into_iter().enumerate() {
        for (value, place) in taps.iter().map(|taps| best(input, taps)) {
            best_values.push(value);
            places.push(((channel * input.len() + place) as u64 % modulus) as i64);
        }
    }
    Ok((best_values, places))
}

// ---- the plane picker

/// Where the plane at an image, a channel and a depth lies in a tensor of `len` elements, or nothing where it is refused.
pub fn pick_plane(len: usize, sizes: [u32; 5], image: u32, channel: u32, depth: u32) -> Option<Range<usize>> {
    let sizes = sizes.map(u64::from);
    let [n, c, z, y, x] = sizes;
    let within = sizes.iter().zip([16, 1024, 4096, 4096, 4096]).all(|(size, most)| within(*size, 1, most));
    let [image, channel, depth] = [image, channel, depth].map(u64::from);
    if !within || product(&sizes) != len as u128 || image >= n || channel >= c || depth >= z {
        return None;
    }
    // All planes of the images before it come first, then those of the channels before it, then the depths before it.
    let plane = (y * x) as usize;
    let before = ((image * c + channel) * z + depth) as usize * plane;
    Some(before..before + plane)
}

// ---- the peak finder

/// Value, row and column of the first largest element.
pub fn find_peak(plane: &[f32], width: usize) -> Result<(f32, usize, usize), Refusal> {
    if width == 0 || plane.is_empty() || plane.len() % width != 0 {
        return Err(refuse(8));
    }
    elements(0, plane)?;
    let mut at = 0;
    for (place, v) in plane.iter().enumerate() {
        if *v > plane[at] {
            at = place;
        }
    }
    Ok((plane[at], at / width, at % width))
}
