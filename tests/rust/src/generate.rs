//! A fixed stream of calls: layers of both versions and of one to three axes that are mostly valid, with small pads and large ones, each number's faults often,
//! damaged sheets, wrong lengths, and elements at every edge.
use crate::reference::{show_sheet, AutoPad, Axis, Layer, Op, Rounding, UNUSED, X};

/// A small generator of its own (xorshift), so that a seed gives the same calls everywhere.
pub struct Random(u64);

impl Random {
    pub fn new(seed: u64) -> Self {
        Random(seed.wrapping_mul(0x9E37_79B9_7F4A_7C15) | 1)
    }

    pub fn draw(&mut self) -> u64 {
        self.0 ^= self.0 << 13;
        self.0 ^= self.0 >> 7;
        self.0 ^= self.0 << 17;
        self.0.wrapping_mul(0x2545_F491_4F6C_DD1D) >> 16
    }

    /// A number from lo to hi.
    pub fn range(&mut self, lo: u64, hi: u64) -> u64 {
        lo + self.draw() % (hi - lo + 1)
    }

    pub fn chance(&mut self, one_in: u64) -> bool {
        self.draw() % one_in == 0
    }

    pub fn pick<T: Copy>(&mut self, from: &[T]) -> T {
        from[(self.draw() % from.len() as u64) as usize]
    }
}

fn axis(r: &mut Random, op: Op, size: u64, kernel: u64) -> Axis {
    let wide = r.chance(40);
    Axis {
        size: r.range(1, size),
        kernel: r.range(1, kernel),
        stride: if wide { r.range(1, 16) } else { r.range(1, 3) },
        dilation: if wide { r.range(1, 16) } else { r.range(1, 3) },
        begin: r.range(0, 3),
        end: r.range(0, 3),
        extra: if op == Op::Transposed { r.range(0, 3) } else { 0 },
    }
}

/// The X axis of a convolution with a row of 1 to 40 outputs: the row's length, stride and dilation first, then an input that gives them.
fn row(r: &mut Random, op: Op, auto_pad: AutoPad) -> Axis {
    let (out, kernel, stride, dilation) = (r.range(1, 40), r.range(1, 7), r.range(1, 4), r.range(1, 3));
    let reach = (kernel - 1) * dilation + 1;
    // No pads, some, or more than the kernel reaches.
    let most = r.pick(&[0, kernel / 2, reach + 2]);
    if op == Op::Transposed {
        let begin = r.range(0, most);
        // One input element alone reaches as far as the kernel: the pad at the end takes what is more than the row. With valid the row is longer by the pads.
        let end = r.range(0, most).max(reach.saturating_sub(out + begin));
        let rest = out + begin + end - reach;
        return Axis { size: rest / stride + 1, kernel, stride, dilation, begin, end, extra: rest % stride };
    }
    let window = if matches!(auto_pad, AutoPad::SameUpper | AutoPad::SameLower) { 1 } else { reach };
    // The columns after the last window are fewer than a stride, and one column at least is the input's.
    let columns = (out - 1) * stride + window + r.range(0, stride - 1);
    let begin = r.range(0, most.min(columns - 1));
    let end = r.range(0, most.min(columns - 1 - begin));
    let pads = if auto_pad == AutoPad::Explicit { begin + end } else { 0 };
    Axis { size: columns - pads, kernel, stride, dilation, begin, end, extra: 0 }
}

/// An axis whose last window by ceil starts at the input's end or past it: ceil_torch has one less. Seldom, with explicit, there are two: one stays, number 7.
fn past_end(r: &mut Random, auto_pad: AutoPad, a: Axis) -> Axis {
    let reach = (a.kernel - 1) * a.dilation + 1;
    if auto_pad == AutoPad::Valid {
        // A stride wider than the kernel and one or two of them, or a little less: the window after them starts past the end.
        let stride = reach.min(13) + r.range(1, 3);
        let size = r.range(1, 2) * stride - r.range(0, stride.saturating_sub(reach + 1));
        return Axis { size, stride, ..a };
    }
    let begin = a.begin.min(reach - 1);
    // The first window that starts at the end or past it starts `gap` after the end. With `gap + reach` pads it fits; with a stride less ceil does not have it.
    let gap = (a.size + begin).next_multiple_of(a.stride) - a.size - begin;
    let end = r.range((gap + reach + 1).saturating_sub(a.stride), gap + reach);
    Axis { begin, end: if r.chance(6) { end + a.stride } else { end }, ..a }
}

/// Z, Y and X, the last `axes` of them drawn. The more axes there are the smaller they are, so that a call stays quick.
fn spatial(r: &mut Random, op: Op, auto_pad: AutoPad, rounding: Rounding, axes: u64) -> [Axis; 3] {
    let by_row = op != Op::MaxPool && r.chance(2);
    let (size, kernel) = match (axes, by_row) {
        (1, _) => (24, 4),
        (2, false) => (7, 4),
        (2, true) => (5, 4),
        (_, false) => (5, 3),
        (_, true) => (3, 2),
    };
    let mut spatial = [UNUSED; 3];
    for a in spatial.iter_mut().rev().take(axes as usize) {
        *a = axis(r, op, size, kernel);
        if rounding == Rounding::CeilTorch && r.chance(2) {
            *a = past_end(r, auto_pad, *a);
        }
    }
    if by_row {
        spatial[X] = row(r, op, auto_pad);
    }
    spatial
}

/// An axis with pads of up to `most`, at one end or at both. The input of a convolution is small, so that many of its windows have no tap inside; a pooling's
/// pads are less than the kernel reaches and its dilation at most the input, so that its windows hold elements.
fn padded(r: &mut Random, op: Op, most: u64) -> Axis {
    let widest = r.pick(&[6, 6, 6, 6, 6, 64]);
    let (kernel, dilation) = (r.range(1, widest), if r.chance(2) { 1 } else { r.range(2, 16) });
    let reach = (kernel - 1) * dilation + 1;
    let most = if op == Op::MaxPool { most.min(reach - 1) } else { most };
    let [begin, end] = [most; 2].map(|most| {
        let some = r.range(0, most);
        r.pick(&[0, some, some, most])
    });
    // With the wider strides there are some 40 outputs, and up to 130 where a stride of 16 is too short for that.
    let stride = if r.chance(3) { r.pick(&[1, 1, 2, 3]) } else { r.range(((begin + end) / 40 + 1).min(16), 16) };
    let axis = Axis { size: 1, kernel, stride, dilation, begin, end, extra: 0 };
    if op == Op::Transposed {
        let rest = (r.range(1, 40) + begin + end).saturating_sub(reach);
        return Axis { size: rest / stride + 1, extra: rest % stride, ..axis };
    }
    let largest = r.pick(&[6, 6, 40]);
    let size = if op == Op::MaxPool { dilation + r.range(0, 9) } else { r.range(1, largest) };
    // The kernel fits.
    Axis { size, end: end.max(reach.saturating_sub(size + begin)), ..axis }
}

/// Large pads: up to 1,024 on one axis, and on each of the others up to 8 or those that it has; at times a same mode under the same kernels. Channels are few,
/// so that a call stays quick.
fn large_pads(r: &mut Random, l: &mut Layer) {
    let (op, large) = (l.op, r.range(0, l.axes - 1) as usize);
    for (at, a) in l.used_mut().iter_mut().enumerate() {
        let most = if at == large { r.pick(&[16, 64, 64, 256, 1024]) } else { 8 };
        if at == large || r.chance(2) {
            *a = padded(r, op, most);
        }
    }
    if l.auto_pad == AutoPad::Valid || !r.chance(4) {
        l.auto_pad = AutoPad::Explicit;
    }
    l.n = 1;
    if op != Op::MaxPool {
        (l.g, l.o, l.i) = r.pick(&[(1, 1, 1), (1, 1, 2), (1, 2, 1), (2, 1, 1)]);
        l.c = l.g * l.i;
    }
}

/// Version and rounding: half of the poolings are of version 14, and half of these have ceil_torch.
fn version(r: &mut Random, op: Op) -> (u64, Rounding) {
    match op {
        Op::MaxPool if r.chance(2) => (14, r.pick(&[Rounding::Floor, Rounding::Ceil, Rounding::CeilTorch, Rounding::CeilTorch])),
        Op::MaxPool => (8, r.pick(&[Rounding::Floor, Rounding::Ceil])),
        _ => (8, Rounding::Floor),
    }
}

/// A layer that is valid more often than not, small enough to be computed.
pub fn layer(r: &mut Random) -> Layer {
    let op = r.pick(&[Op::Convolution, Op::Transposed, Op::MaxPool]);
    let axes = r.range(1, 3);
    let (g, o, i) = if op == Op::MaxPool { (1, 1, 1) } else { (r.range(1, 3), r.range(1, 3), r.range(1, 3)) };
    let auto_pad = if op == Op::Transposed {
        r.pick(&[AutoPad::Explicit, AutoPad::Explicit, AutoPad::Valid])
    } else {
        r.pick(&[AutoPad::Explicit, AutoPad::SameUpper, AutoPad::SameLower, AutoPad::Valid])
    };
    let rank = axes as i64 + 2;
    let (version, rounding) = version(r, op);
    let mut layer = Layer {
        version,
        op,
        axes,
        n: r.range(1, 2),
        c: if op == Op::MaxPool { r.range(1, 3) } else { g * i },
        g,
        o,
        i,
        spatial: spatial(r, op, auto_pad, rounding, axes),
        auto_pad,
        rounding,
        axis: if op == Op::MaxPool { r.range(0, 2 * rank as u64 - 1) as i64 - rank } else { 0 },
    };
    if r.chance(if op == Op::Convolution { 4 } else { 12 }) {
        large_pads(r, &mut layer);
    }
    layer
}

/// As many taps as are taken, or too many: number 4 for a convolution.
fn many_taps(r: &mut Random, l: &mut Layer) {
    let kernel = [64, 64, 16][l.axes as usize - 1];
    l.used_mut().iter_mut().for_each(|a| a.kernel = kernel);
    if l.op != Op::MaxPool {
        l.i = r.pick(&[1, 2, 65, 65]);
        l.c = l.g * l.i;
    }
}

/// Too many elements in the input, but for a convolution of one axis: number 4.
fn many_inputs(l: &mut Layer) {
    l.n = 16;
    l.used_mut().iter_mut().for_each(|a| a.size = 4096);
    if l.op == Op::MaxPool {
        l.c = 1024;
    }
}

/// Outputs above the limit: number 6.
fn many_outputs(l: &mut Layer) {
    let pads = if l.op == Op::Transposed { 0 } else { 1024 };
    for (a, size) in l.used_mut().iter_mut().rev().zip([4096, 900, 1]) {
        *a = Axis { size, stride: 1, begin: pads, end: pads, ..*a };
    }
    l.auto_pad = AutoPad::Explicit;
    let (n, c) = if l.axes == 1 { (16, 250) } else { (1, 3) };
    l.n = n;
    if l.op == Op::MaxPool {
        l.c = c;
    } else {
        (l.c, l.g, l.o, l.i) = (1, 1, 1024, 1);
    }
    if l.op == Op::Transposed {
        l.spatial[X].stride = 16;
    }
}

/// One field set to an edge (0, its limit, one above, the largest u32, or something near), or a few set for one number.
pub fn spoil(r: &mut Random, l: &mut Layer) {
    let edge = r.pick(&[0, 1, 2, 15, 16, 17, 63, 64, 65, 1023, 1024, 1025, 4095, 4096, 4097, u64::from(u32::MAX)]);
    let field = r.range(0, 23);
    let a = &mut l.spatial[r.range(3 - l.axes, 2) as usize];
    match field {
        0 => l.n = edge,
        1 => l.c = edge,
        2 => a.size = edge,
        3 => a.kernel = edge,
        4 => a.stride = edge,
        5 => a.dilation = edge,
        6 => a.begin = edge,
        7 => a.end = edge,
        8 if l.op == Op::Transposed => a.extra = edge,
        9 | 10 if l.op != Op::MaxPool => l.g = edge,
        11 if l.op != Op::MaxPool => l.o = edge,
        12 if l.op != Op::MaxPool => l.i = edge,
        13 => l.axis = if l.op == Op::MaxPool { r.range(0, 18) as i64 - 9 } else { 0 },
        14 if l.op == Op::Transposed => l.auto_pad = r.pick(&[AutoPad::SameUpper, AutoPad::SameLower]),
        15 => many_taps(r, l),
        16 => many_inputs(l),
        17 | 18 => many_outputs(l),
        // Windows that miss the input: number 7.
        19 | 20 if l.op == Op::MaxPool => {
            l.rounding = if l.version == 14 { r.pick(&[Rounding::Ceil, Rounding::CeilTorch]) } else { Rounding::Ceil };
            *a = Axis { kernel: r.range(1, 3), stride: r.range(2, 9), dilation: r.range(1, 16), ..*a };
        }
        21 => l.version = r.pick(&[0, 8, 13, 14, 14, 15, 140, u64::from(u32::MAX)]),
        22 => l.rounding = r.pick(&[Rounding::Floor, Rounding::Ceil, Rounding::CeilTorch]),
        _ => l.auto_pad = r.pick(&[AutoPad::Explicit, AutoPad::Valid]),
    }
}

/// Lines that take the place of those with their keys: wrong words and numbers, and lists that have the right length with some numbers of axes alone.
const LINES: [&str; 40] = [
    "op=pool",
    "auto_pad=same",
    "auto_pad=SAME_UPPER",
    "rounding=ceil",
    "rounding=round",
    "rounding=ceil_torch",
    "rounding=CEIL_TORCH",
    "rounding=ceil_",
    "axis=-0",
    "axis=10",
    "axis=1",
    "axis=-9",
    "axis=",
    "axes=0",
    "axes=1",
    "axes=2",
    "axes=3",
    "axes=4",
    "axes=02",
    "axes=03",
    "strides=1",
    "strides=1,1,1",
    "strides=1,1,1,1",
    "strides=01,1",
    "strides=1,1,01",
    "strides=4294967296,1",
    "strides=1,4294967296,1",
    "strides=1,,1",
    "dilations=1,1",
    "output_padding=1",
    "output_padding=1,0",
    "output_padding=1,0,0",
    "output_padding=0,0",
    "output_padding=0,0,0",
    "kernel=1,1",
    "kernel=1,1,1,1,1",
    "kernel=1,1,1,1,1,1",
    "input=1,1,4,4",
    "input=1,1,4,4,4",
    "input=-1,1,4,4",
];

/// A list with one number more, or one less.
fn recount(r: &mut Random, lines: &mut [String]) {
    let op_line = lines.len() - 12;
    let line = &mut lines[op_line + r.pick(&[2, 3, 4, 5, 7, 8, 9])];
    match line.rfind(',') {
        Some(last) if r.chance(2) => line.truncate(last),
        _ => line.push_str(",1"),
    }
}

/// A line damaged, and seldom two in each other's place.
fn edit_lines(r: &mut Random, text: &str) -> String {
    let mut lines: Vec<String> = text.lines().map(str::to_string).collect();
    if r.chance(4) {
        recount(r, &mut lines);
    } else {
        let by = r.pick(&LINES);
        let key = by.split_inclusive('=').next().expect("a line has a key");
        for line in lines.iter_mut().filter(|line| line.starts_with(key)) {
            *line = by.to_string();
        }
    }
    if r.chance(6) {
        let last = lines.len() as u64 - 1;
        let (a, b) = (r.range(0, last) as usize, r.range(0, last) as usize);
        lines.swap(a, b);
    }
    lines.into_iter().map(|line| line + "\n").collect()
}

/// Lines in place of `version=14`.
const VERSIONS: [&str; 18] = [
    "version=8", "version=15", "version=014", "version=", "version=4294967310", "version=14 ", "version=14\r", "version=+14", "version=14,14", "version=1",
    "version=140", "Version=14", "VERSION=14", "version:14", "version", " version=14", "version =14", "versions=14",
];

/// A sheet with a bad version line, or with `version=14` twice, at another place, without its line end, alone, before any operator, or left out.
fn edit_version(r: &mut Random, text: &str) -> String {
    const LINE: &str = "version=14\n";
    let without = text.strip_prefix(LINE).unwrap_or(text);
    let torch = without.replace("=floor\n", "=ceil_torch\n");
    match r.range(0, 8) {
        0 | 1 => format!("{}\n{without}", r.pick(&VERSIONS)),
        2 => format!("{LINE}{text}"),
        3 => format!("{LINE}{torch}"),
        4 => torch,
        5 => without.to_string(),
        6 => {
            let mut lines: Vec<&str> = without.split_inclusive('\n').collect();
            lines.insert(r.range(1, lines.len() as u64) as usize, LINE);
            lines.concat()
        }
        7 => format!("version=14{without}"),
        _ => LINE[..r.range(1, LINE.len() as u64) as usize].to_string(),
    }
}

/// A sheet of the layer, at times damaged: a byte, the end, a line, or the order.
pub fn sheet(r: &mut Random, l: &Layer) -> Vec<u8> {
    let shown = show_sheet(l);
    let mut text = shown.clone().into_bytes();
    if !r.chance(6) {
        return text;
    }
    let at = r.range(0, text.len() as u64 - 1) as usize;
    match r.range(0, 11) {
        0 => text[at] = r.pick(&[b'0', b'9', b',', b'=', b'\n', b'-', b' ', b'x', 0, 255]),
        1 => {
            text.remove(at);
        }
        2 => text.insert(at, r.pick(b"01,\n \r")),
        3 => text.truncate(at),
        4 => text.extend_from_slice(r.pick(&[&b"\n"[..], b"x", b"axis=0\n", b" ", b"version=14\n"])),
        5 | 6 => text = edit_version(r, &shown).into_bytes(),
        _ => text = edit_lines(r, &shown).into_bytes(),
    }
    text
}

/// How a call's elements are drawn.
#[derive(Clone, Copy, Debug, PartialEq, Eq)]
pub enum Kind {
    /// Whole numbers of magnitude up to 4,096: demand 3's premise.
    Whole,
    /// Any good f32, signed zeros, subnormals and 2^40 among them.
    Any,
    /// Zeros, subnormals and others so small that their products round to zero, seldom 1; in three tensors of four all have one sign.
    Small,
}

pub fn kind(r: &mut Random) -> Kind {
    r.pick(&[Kind::Whole, Kind::Whole, Kind::Whole, Kind::Whole, Kind::Any, Kind::Any, Kind::Small])
}

const LIMIT: f32 = 1_099_511_627_776.0;

fn small_magnitude(r: &mut Random) -> f32 {
    match r.range(0, 29) {
        0 => 1.0,
        1..=8 => f32::from_bits(r.range(1, 0x007F_FFFF) as u32),
        9 | 10 => f32::MIN_POSITIVE,
        11 | 12 => 2f32.powi(-100),
        _ => 0.0,
    }
}

fn element(r: &mut Random, kind: Kind) -> f32 {
    match kind {
        Kind::Whole => {
            let magnitude = match r.range(0, 9) {
                0 => 0.0,
                1 => 4096.0,
                2 => r.range(4000, 4096) as f32,
                3..=5 => r.range(0, 4096) as f32,
                _ => r.range(0, 60) as f32,
            };
            if r.chance(2) { -magnitude } else { magnitude }
        }
        Kind::Any => match r.range(0, 19) {
            0 => 0.0,
            1 => -0.0,
            2 => f32::from_bits(r.range(1, 0x007F_FFFF) as u32),
            3 => -f32::from_bits(r.range(1, 0x007F_FFFF) as u32),
            4 => LIMIT,
            5 => -LIMIT,
            6 => f32::from_bits(LIMIT.to_bits() - 1),
            7 => f32::MIN_POSITIVE,
            8 => r.range(0, 3) as f32 - 1.0,
            _ => {
                let v = f32::from_bits((r.draw() & 0xFFFF_FFFF) as u32);
                if v.is_nan() || v.abs() > LIMIT { 0.5 } else { v }
            }
        },
        Kind::Small => {
            let magnitude = small_magnitude(r);
            if r.chance(2) { -magnitude } else { magnitude }
        }
    }
}

fn bad_element(r: &mut Random) -> f32 {
    r.pick(&[
        f32::NAN, -f32::NAN, f32::INFINITY, f32::NEG_INFINITY, f32::from_bits(LIMIT.to_bits() + 1), -f32::from_bits(LIMIT.to_bits() + 1), f32::MAX,
        f32::from_bits(0x7F80_0001),
    ])
}

/// One element of a tensor becomes bad, or a few, or any number, or all.
pub fn spoil_elements(r: &mut Random, t: &mut [f32]) {
    let len = t.len() as u64;
    match r.range(0, 3) {
        _ if len == 0 => {}
        0 => t.iter_mut().for_each(|v| *v = bad_element(r)),
        several => {
            let most = [1, 1, 4, len][several as usize];
            for _ in 0..r.range(1, most) {
                t[r.range(0, len - 1) as usize] = bad_element(r);
            }
        }
    }
}

/// Elements of a tensor, none of them bad.
pub fn good_tensor(r: &mut Random, kind: Kind, len: usize) -> Vec<f32> {
    let mut t: Vec<f32> = (0..len).map(|_| element(r, kind)).collect();
    if kind == Kind::Small && !r.chance(4) {
        let sign = r.pick(&[1.0, -1.0]);
        t.iter_mut().for_each(|v| *v = v.copysign(sign));
    }
    t
}

/// Elements of a tensor, seldom with bad ones.
pub fn tensor(r: &mut Random, kind: Kind, len: usize) -> Vec<f32> {
    let mut t = good_tensor(r, kind, len);
    if r.chance(24) {
        spoil_elements(r, &mut t);
    }
    t
}

/// Layers with an input or a kernel of 16,777,216 elements and few products, or the same transposed, or pooled; two or three axes.
pub fn largest() -> [Layer; 5] {
    let along = |size, kernel, stride| Axis { size, kernel, stride, ..UNUSED };
    let two = |a: Axis| (2, [UNUSED, a, a]);
    let layer = |op, [n, g, o, i]: [u64; 4], (axes, spatial)| Layer { n, c: g * i, g, o, i, spatial, ..Layer::new(op, axes) };
    // The transposed output of 16 by 16 by 16 keeps its first element alone.
    let cut = Axis { end: 15, ..along(1, 16, 1) };
    let pooled = (3, [along(4, 4, 1), along(16, 16, 1), along(16, 16, 1)]);
    [
        layer(Op::Convolution, [16, 1, 1, 1024], two(along(32, 2, 16))),
        layer(Op::Convolution, [1, 4, 1024, 1], two(along(64, 64, 1))),
        layer(Op::Transposed, [16, 1, 1, 1024], two(along(32, 1, 1))),
        layer(Op::Transposed, [1, 4, 1024, 1], (3, [cut; 3])),
        Layer { c: 1024, ..layer(Op::MaxPool, [16, 1, 1, 1], pooled) },
    ]
}

/// Convolutions with every number of taps up to 64, and with as many as are taken or a few less, so that runs of them have halves of two sizes. Each has taps
/// outside.
pub fn by_taps() -> Vec<Layer> {
    let layer = |i: u64, kernels: &[u64]| {
        let mut l = Layer { c: i, o: 2, i, ..Layer::new(Op::Convolution, kernels.len() as u64) };
        for (a, kernel) in l.used_mut().iter_mut().zip(kernels) {
            *a = Axis { size: kernel + 2, kernel: *kernel, begin: 1, end: 2, ..UNUSED };
        }
        l
    };
    let most = [
        layer(64, &[64]),
        layer(1021, &[4]),
        layer(1, &[64, 64]),
        layer(65, &[9, 7]),
        layer(1, &[63, 63]),
        layer(1, &[16, 16, 16]),
        layer(13, &[5, 7, 9]),
    ];
    (1..=64).map(|taps| layer(1, &[taps])).chain(most).collect()
}

/// A length that is seldom wrong.
pub fn length(r: &mut Random, len: u64) -> usize {
    let len = len as usize;
    if !r.chance(30) {
        return len;
    }
    r.pick(&[len + 1, len.saturating_sub(1), 0, 2 * len])
}

/// What the plane picker is given: the tensor's length, its five sizes, an image, a channel and a depth.
#[derive(Clone, Copy, Debug)]
pub struct Pick {
    pub len: usize,
    pub sizes: [u32; 5],
    pub image: u32,
    pub channel: u32,
    pub depth: u32,
}

/// The longest tensor that a plane is picked from: twice as many elements as an operator takes, and one too many.
const LONGEST: u128 = 33_554_433;

/// Products of 2^32, of 2^32 + 16,384, and of 2^25.
const LARGE_SIZES: [[u32; 5]; 6] = [
    [16, 1024, 1, 4096, 64], [16, 1024, 64, 64, 64], [16, 1024, 1, 481, 545], [16, 1024, 481, 545, 1], [16, 1024, 2, 32, 32], [1, 1, 4096, 128, 64],
];

/// N, C, Z, Y and X: small, or two of them at their limits, or outside, or with a large product.
fn plane_sizes(r: &mut Random) -> [u32; 5] {
    const LIMITS: [u32; 5] = [16, 1024, 4096, 4096, 4096];
    let mut sizes = [3, 4, 4, 6, 6].map(|most| r.range(1, most) as u32);
    match r.range(0, 11) {
        0 => sizes = r.pick(&LARGE_SIZES),
        1 | 2 => {
            sizes = [1; 5];
            for at in [r.range(0, 4) as usize, r.range(0, 4) as usize] {
                sizes[at] = LIMITS[at] - r.range(0, 1) as u32;
            }
        }
        3..=5 => {
            for _ in 0..r.range(1, 2) {
                let at = r.range(0, 4) as usize;
                sizes[at] = r.pick(&[0, LIMITS[at] + 1, LIMITS[at] + 1, 65_536, 1 << 31, u32::MAX]);
            }
        }
        _ => {}
    }
    sizes
}

/// A position below the count, seldom at it or above.
fn position(r: &mut Random, count: u32) -> u32 {
    if count == 0 || r.chance(12) {
        return r.pick(&[count, count, count.saturating_add(1), u32::MAX]);
    }
    r.range(0, u64::from(count) - 1) as u32
}

pub fn pick(r: &mut Random) -> Pick {
    let sizes = plane_sizes(r);
    let count = sizes.iter().fold(1u128, |p, s| p * u128::from(*s));
    // A product that is too long to lend is lent as 32 bits would have it.
    let lent = if count < LONGEST { count } else { count % (1 << 32) };
    let mut len = if lent < LONGEST { lent as usize } else { 0 };
    if r.chance(8) {
        len = r.pick(&[len + 1, len + 1, len.saturating_sub(1), len.saturating_sub(1), len / 2, 0]);
    }
    Pick { len, sizes, image: position(r, sizes[0]), channel: position(r, sizes[1]), depth: position(r, sizes[2]) }
}
