//! Pairs of calls of the static library that share one image of the input and nothing else of it, and the call on that image alone: by document 01 (C-11) the
//! outputs and indices of the image are the same, for convolution in calls of one profile. Here the library is beside itself; `differential` has it beside the
//! reference.
//! usage: images [PAIRS] [SEED]      (20,000 pairs and seed 1 by default)
use kozamyure::answers;
use kozamyure_tests::functions::{profiles, sums};
use kozamyure_tests::generate::{self, Random};
use kozamyure_tests::reference::{self, Layer, Op, Profile};
use std::collections::BTreeMap;
use std::ops::Range;
use std::process::ExitCode;

/// What a call comes back with and leaves: its number, the bits of its outputs and, of max pooling, its indices.
struct Left {
    number: u32,
    outputs: Vec<u32>,
    indices: Vec<i64>,
}

/// What the calls of a pair have in common: layer, profile and the image.
#[derive(Clone, Copy)]
struct Shared {
    layer: Layer,
    profile: Profile,
    n: usize,
}

impl Shared {
    fn name(&self) -> &'static str {
        let of = |(op, profile, _): &&(Op, Profile, _)| (*op, *profile) == (self.layer.op, self.profile);
        FUNCTIONS.iter().find(of).expect("every function is there").2
    }

    /// The shared image of a tensor of all images.
    fn image<'a, T>(&self, tensor: &'a [T]) -> &'a [T] {
        &tensor[self.range(tensor.len())]
    }

    /// Where it lies in a tensor of so many elements.
    fn range(&self, len: usize) -> Range<usize> {
        let size = len / self.layer.n as usize;
        self.n * size..(self.n + 1) * size
    }
}

const FUNCTIONS: [(Op, Profile, &str); 4] = [
    (Op::Convolution, Profile::Running, "convolution"),
    (Op::Convolution, Profile::Halved, "convolution with halved sums"),
    (Op::Transposed, Profile::Running, "transposed"),
    (Op::MaxPool, Profile::Running, "maxpool"),
];
const AXES: [&str; 3] = ["one axis", "two axes", "three axes"];

/// What pairs of any function have, those of convolution, and those of max pooling: each must be seen.
const IMAGES: [&str; 8] =
    ["two images", "three to fifteen", "sixteen", "the first", "the last", "one between", "a call refused for another image", "other outputs elsewhere"];
const OTHER_PROFILE: [&str; 1] = ["other bits in the other profile"];
const INDICES: [&str; 5] = ["axis 0", "axis -R", "axis above 0", "axis from -R + 1 on", "other indices elsewhere"];

#[derive(Default)]
struct Seen {
    /// Pairs of accepted calls, by function and what they have.
    pairs: BTreeMap<(&'static str, &'static str), u64>,
    alone: u64,
    outputs: u64,
    failures: u64,
}

impl Seen {
    fn see(&mut self, name: &'static str, what: &'static str, has: bool) {
        *self.pairs.entry((name, what)).or_default() += u64::from(has);
    }

    fn same<T: PartialEq + std::fmt::Debug>(&mut self, what: &str, shared: &Shared, got: &[T], expected: &[T]) {
        self.outputs += expected.len() as u64;
        if got == expected {
            return;
        }
        self.failures += 1;
        if self.failures <= 5 {
            let (name, n, sheet) = (shared.name(), shared.n, reference::show_sheet(&shared.layer));
            eprintln!("FAILED: {name}, {what} of image {n}: {got:?}, expected {expected:?}\nsheet:\n{sheet}");
        }
    }
}

/// A call with outputs that hold anything at entry.
fn call(r: &mut Random, l: &Layer, profile: Profile, input: &[f32], kernel: &[f32], outputs: usize) -> Left {
    let sheet = reference::show_sheet(l).into_bytes();
    let mut output: Vec<f32> = (0..outputs).map(|_| f32::from_bits(r.draw() as u32)).collect();
    let mut indices: Vec<i64> = (0..outputs).map(|_| r.draw() as i64).collect();
    let answer = match l.op {
        Op::MaxPool => answers::maxpool(&sheet, input, &mut output, &mut indices),
        op => sums(op, profile)(&sheet, input, kernel, &mut output),
    };
    if l.op != Op::MaxPool {
        indices.clear();
    }
    Left { number: answer.number, outputs: output.iter().map(|v| v.to_bits()).collect(), indices }
}

/// A layer of at least two images that checks 1 to 7 accept and that is quick to compute.
fn batch(r: &mut Random) -> (Layer, reference::Shape) {
    loop {
        let layer = Layer { n: r.pick(&[2, 2, 2, 3, 4, 7, 16]), ..generate::layer(r) };
        match reference::judge(layer.op, &layer) {
            Ok(shape) if shape.inputs <= 40_000 && shape.outputs * shape.taps <= 400_000 => return (layer, shape),
            _ => {}
        }
    }
}

/// The call on the image alone beside a call that was accepted.
fn check_alone(r: &mut Random, seen: &mut Seen, shared: &Shared, input: &[f32], kernel: &[f32], batch: &Left) {
    let Shared { layer: l, profile, n } = shared;
    let (own, of_batch) = (shared.image(input), shared.image(&batch.outputs));
    let alone = call(r, &Layer { n: 1, ..*l }, *profile, own, kernel, of_batch.len());
    let counts_images = l.op == Op::MaxPool && (l.axis == 0 || l.axis == -(l.axes as i64 + 2));
    let more = if counts_images { (n * own.len()) as i64 } else { 0 };
    let indices: Vec<i64> = alone.indices.iter().map(|p| p + more).collect();
    seen.alone += 1;
    seen.same("alone: number", shared, &[alone.number], &[0]);
    seen.same("alone: outputs", shared, of_batch, &alone.outputs);
    seen.same("alone: indices", shared, shared.image(&batch.indices), &indices);
}

/// What a pair of accepted calls has.
fn see_pair(seen: &mut Seen, shared: &Shared, a: &Left, b: &Left) {
    let (name, Shared { layer: l, n, .. }) = (shared.name(), *shared);
    let [two, some, sixteen, first, last, between, _, elsewhere] = IMAGES;
    let end = l.n as usize - 1;
    seen.see(name, AXES[l.axes as usize - 1], true);
    let images = [(two, l.n == 2), (some, l.n > 2 && l.n < 16), (sixteen, l.n == 16), (first, n == 0), (last, n == end), (between, n > 0 && n < end)];
    images.into_iter().for_each(|(what, has)| seen.see(name, what, has));
    seen.see(name, elsewhere, a.outputs != b.outputs);
    if l.op == Op::MaxPool {
        let rank = l.axes as i64 + 2;
        let [zero, minus_rank, above, below, elsewhere] = INDICES;
        let axes = [(zero, l.axis == 0), (minus_rank, l.axis == -rank), (above, l.axis > 0), (below, l.axis < 0 && l.axis > -rank)];
        axes.into_iter().for_each(|(what, has)| seen.see(name, what, has));
        seen.see(name, elsewhere, a.indices != b.indices);
    }
}

/// Whether the other profile of a convolution leaves other bits, so that both calls of a pair have to be of one.
fn see_other_profile(r: &mut Random, seen: &mut Seen, shared: &Shared, input: &[f32], kernel: &[f32], left: &Left) {
    if let Some(other) = profiles(shared.layer.op).iter().find(|p| **p != shared.profile) {
        let bits = call(r, &shared.layer, *other, input, kernel, left.outputs.len()).outputs;
        seen.see(shared.name(), OTHER_PROFILE[0], bits != left.outputs);
    }
}

/// Two inputs that share an image: number 9 where one has a bad element in it, and no other refusal.
fn one_pair(r: &mut Random, seen: &mut Seen) {
    let (layer, shape) = batch(r);
    let shared = Shared { layer, profile: r.pick(profiles(layer.op)), n: r.range(0, layer.n - 1) as usize };
    let [inputs, weights, outputs] = [shape.inputs, shape.weights, shape.outputs].map(|len| len as usize);
    let (kind, other) = (generate::kind(r), generate::kind(r));
    let a = generate::tensor(r, kind, inputs);
    let mut b = generate::tensor(r, other, inputs);
    b[shared.range(inputs)].copy_from_slice(shared.image(&a));
    let kernel = if layer.op == Op::MaxPool { Vec::new() } else { generate::tensor(r, kind, weights) };
    let left = [&a, &b].map(|input| {
        let good = reference::elements(0, input).is_ok() && reference::elements(1, &kernel).is_ok();
        let left = call(r, &layer, shared.profile, input, &kernel, outputs);
        seen.same("number", &shared, &[left.number], &[if good { 0 } else { 9 }]);
        if left.number == 0 {
            check_alone(r, seen, &shared, input, &kernel, &left);
        }
        left
    });
    let [first, second] = &left;
    let [.., refused, _] = IMAGES;
    match left.each_ref().map(|left| left.number) {
        [0, 0] => {
            seen.same("outputs", &shared, shared.image(&first.outputs), shared.image(&second.outputs));
            seen.same("indices", &shared, shared.image(&first.indices), shared.image(&second.indices));
            see_pair(seen, &shared, first, second);
            see_other_profile(r, seen, &shared, &a, &kernel, first);
        }
        [0, _] | [_, 0] => seen.see(shared.name(), refused, true),
        _ => {}
    }
}

fn main() -> ExitCode {
    let args: Vec<u64> = std::env::args().skip(1).map(|a| a.parse().expect("numbers: PAIRS SEED")).collect();
    let pairs = args.first().copied().unwrap_or(20_000);
    let mut r = Random::new(args.get(1).copied().unwrap_or(1));
    let mut seen = Seen::default();
    (0..pairs).for_each(|_| one_pair(&mut r, &mut seen));
    println!("{pairs} pairs of calls that share an image, {} calls on it alone, {} numbers, outputs and indices compared", seen.alone, seen.outputs);
    let mut all = true;
    for (op, _, name) in FUNCTIONS {
        let own = match op {
            Op::Convolution => &OTHER_PROFILE[..],
            Op::Transposed => &[],
            Op::MaxPool => &INDICES,
        };
        let whats = AXES.iter().chain(&IMAGES).chain(own);
        let counts: Vec<_> = whats.map(|what| (what, seen.pairs.get(&(name, *what)).copied().unwrap_or(0))).collect();
        println!("{name}: {}", counts.iter().map(|(what, n)| format!("{what} {n}")).collect::<Vec<_>>().join(", "));
        all &= counts.iter().all(|(_, n)| *n > 0);
    }
    if seen.failures > 0 || !all {
        println!("{} comparisons FAILED{}", seen.failures, if all { "" } else { "; some pairs were not met" });
        return ExitCode::FAILURE;
    }
    println!("all agree");
    ExitCode::SUCCESS
}
