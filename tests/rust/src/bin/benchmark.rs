//! Times each operator of the static library beside baselines on the same inputs: the same loops in plain Rust, in C at -O2 and at -O3, and the limit, which
//! is C at -O3 tap by tap over whole rows of outputs. All sum in the same order; outputs are compared bit for bit. Prints the best runs, the ratio of the
//! library's time to plain Rust's, and the share of the limit's speed that the library reaches; for a convolution also the share of its taps that lie inside
//! the input, and the library's time for each of these. With a path it also writes the ratios as a bar chart. Last come the two summing profiles of
//! convolution: times, and the largest distances from exact sums beside their bounds.
//! usage: benchmark [CHART.svg]
use kozamyure_tests::baseline::{c_o2, c_o3, c_rows, plain_rust, Call, Outputs};
use kozamyure_tests::chart::{chart, Row};
use kozamyure_tests::distance;
use kozamyure_tests::functions::sums;
use kozamyure_tests::generate::Random;
use kozamyure_tests::reference::Op::{self, Convolution, MaxPool, Transposed};
use kozamyure_tests::reference::{judge, show_sheet, taps_inside, Axis, Layer, Shape, PROFILES, UNUSED};
use std::process::ExitCode;
use std::time::{Duration, Instant};

/// Operator; channels, Y, X, output channels, kernel, stride, dilation, pads; a note.
type Case = (Op, [u64; 8], &'static str);

const CASES: &[Case] = &[
    (Convolution, [3, 224, 224, 64, 5, 1, 1, 2], " (000's example 2)"),
    (Convolution, [1, 480, 640, 1, 5, 1, 1, 2], " (a camera picture)"),
    (Convolution, [1, 480, 640, 8, 5, 1, 1, 2], " (a camera picture, 8 output channels)"),
    (Convolution, [1, 64, 64, 8, 3, 1, 1, 1], ""),
    (Convolution, [16, 64, 64, 8, 3, 1, 1, 1], ""),
    (Convolution, [16, 64, 64, 8, 5, 1, 1, 2], ""),
    (Convolution, [4, 64, 64, 8, 11, 1, 1, 5], ""),
    (Convolution, [4, 16, 16, 8, 3, 1, 1, 1], ""),
    (Convolution, [4, 32, 32, 8, 3, 1, 1, 1], ""),
    (Convolution, [4, 64, 64, 8, 3, 1, 1, 1], ""),
    (Convolution, [4, 128, 128, 8, 3, 1, 1, 1], ""),
    (Convolution, [4, 128, 128, 8, 3, 2, 1, 1], ""),
    (Convolution, [4, 64, 64, 8, 3, 1, 2, 2], ""),
    (Convolution, [4, 64, 64, 8, 3, 1, 1, 20], " (wide pads)"),
    (Convolution, [1, 64, 64, 1, 5, 1, 1, 0], ""),
    (Convolution, [1, 64, 64, 1, 5, 1, 1, 16], ""),
    (Convolution, [1, 64, 64, 1, 5, 1, 1, 64], ""),
    (Convolution, [1, 64, 64, 1, 5, 1, 1, 1024], ""),
    (Convolution, [1, 64, 64, 1, 5, 1, 2, 64], ""),
    (Convolution, [1, 64, 64, 1, 5, 2, 1, 64], ""),
    (Convolution, [1, 64, 64, 1, 31, 1, 1, 15], ""),
    (Convolution, [1, 64, 64, 1, 31, 1, 1, 30], ""),
    (Convolution, [1, 64, 64, 1, 63, 1, 1, 31], ""),
    // One tap for each channel.
    (Convolution, [1, 64, 64, 8, 1, 1, 1, 0], ""),
    (Convolution, [16, 64, 64, 8, 1, 1, 1, 0], ""),
    (Convolution, [64, 64, 64, 8, 1, 1, 1, 0], ""),
    (Convolution, [64, 16, 16, 8, 1, 1, 1, 0], ""),
    (Convolution, [64, 64, 64, 8, 1, 2, 1, 0], ""),
    (Convolution, [8, 64, 3, 8, 3, 1, 1, 0], " (rows of 1)"),
    (Convolution, [8, 64, 4, 8, 3, 1, 1, 0], " (rows of 2)"),
    (Convolution, [8, 64, 5, 8, 3, 1, 1, 0], " (rows of 3)"),
    (Convolution, [8, 64, 6, 8, 3, 1, 1, 0], " (rows of 4)"),
    (Convolution, [8, 64, 7, 8, 3, 1, 1, 0], " (rows of 5)"),
    (Convolution, [8, 64, 8, 8, 3, 1, 1, 0], " (rows of 6)"),
    (Convolution, [8, 64, 10, 8, 3, 1, 1, 0], " (rows of 8)"),
    (Convolution, [8, 64, 14, 8, 3, 1, 1, 0], " (rows of 12)"),
    (Convolution, [8, 64, 4, 8, 3, 1, 1, 1], " (rows of 4)"),
    (Convolution, [8, 64, 5, 8, 3, 1, 1, 1], " (rows of 5)"),
    (Convolution, [8, 64, 6, 8, 3, 1, 1, 1], " (rows of 6)"),
    (Convolution, [8, 64, 8, 8, 3, 1, 1, 1], " (rows of 8)"),
    (Convolution, [4, 64, 6, 8, 7, 1, 1, 3], " (rows of 6)"),
    (Convolution, [4, 64, 8, 8, 7, 1, 1, 3], " (rows of 8)"),
    (Transposed, [4, 32, 32, 8, 3, 1, 1, 1], ""),
    (Transposed, [4, 64, 64, 8, 3, 1, 1, 1], ""),
    (Transposed, [4, 32, 32, 8, 3, 2, 1, 1], ""),
    (Transposed, [4, 64, 64, 8, 3, 2, 1, 1], ""),
    (Transposed, [4, 64, 64, 8, 4, 2, 1, 1], ""),
    (Transposed, [4, 64, 64, 8, 5, 3, 1, 1], ""),
    (Transposed, [64, 64, 64, 8, 1, 1, 1, 0], ""),
    (Transposed, [8, 64, 1, 8, 3, 1, 1, 1], " (rows of 1)"),
    (Transposed, [8, 64, 2, 8, 3, 1, 1, 1], " (rows of 2)"),
    (Transposed, [8, 64, 4, 8, 3, 1, 1, 1], " (rows of 4)"),
    (Transposed, [8, 64, 8, 8, 3, 1, 1, 1], " (rows of 8)"),
    (MaxPool, [16, 64, 64, 1, 2, 2, 1, 0], ""),
    (MaxPool, [16, 128, 128, 1, 2, 2, 1, 0], ""),
    (MaxPool, [16, 128, 128, 1, 3, 1, 1, 0], ""),
    (MaxPool, [16, 128, 128, 1, 5, 2, 1, 0], ""),
];

/// Calls with three axes: Z, and a case with its Y, X and so on; the kernel has the same size on each axis.
const THREE_AXES: &[(u64, Case)] = &[
    (16, (Convolution, [4, 32, 32, 4, 3, 1, 1, 1], "")),
    (16, (Convolution, [4, 32, 32, 4, 3, 1, 1, 16], "")),
    (16, (MaxPool, [16, 64, 64, 1, 2, 2, 1, 0], "")),
];

/// Convolutions that are timed in both profiles.
const BOTH_PROFILES: &[Case] = &[
    (Convolution, [1, 480, 640, 1, 5, 1, 1, 2], " (a camera picture)"),
    (Convolution, [16, 64, 64, 8, 5, 1, 1, 2], ""),
    (Convolution, [64, 16, 16, 8, 8, 1, 1, 0], " (4,096 taps)"),
];

/// How often the benchmark goes over all calls: a slow phase of the machine outlasts the turns of one call, but not the whole table.
const PASSES: usize = 4;

type Run = (&'static str, fn(&Call, &mut Outputs));

/// What is timed. Pooling goes without the limit.
const RUNS: [Run; 5] = [("library", library), ("plain Rust", plain_rust), ("C -O2", c_o2), ("C -O3", c_o3), ("limit", c_rows)];

/// The best times of a call, in milliseconds, in the order of RUNS.
struct Measured {
    call: Call,
    name: String,
    times: Vec<f64>,
}

impl Measured {
    fn new(z: Option<u64>, case: &Case) -> Self {
        let call = call(z, case);
        let name = name(&show_sheet(&call.layer), case);
        let runs = if case.0 == MaxPool { RUNS.len() - 1 } else { RUNS.len() };
        Measured { call, name, times: vec![f64::INFINITY; runs] }
    }

    fn ratio(&self) -> f64 {
        self.times[0] / self.times[1]
    }

    /// The share of the limit, in percent.
    fn share(&self) -> Option<f64> {
        self.times.get(4).map(|limit| 100.0 * limit / self.times[0])
    }

    /// A convolution's share of taps inside the input, in percent, and the library's time for each of them, in nanoseconds.
    fn inside(&self) -> Option<(f64, f64)> {
        let Call { layer, shape, .. } = &self.call;
        let share = (layer.op == Convolution).then(|| share_inside(layer, shape))?;
        Some((100.0 * share, self.times[0] * 1e6 / (share * (shape.outputs * shape.taps) as f64)))
    }
}

/// The taps inside the input of all outputs, as a share of outputs times K. A tap is inside if it is inside on every axis, so the axes' shares are multiplied.
fn share_inside(l: &Layer, s: &Shape) -> f64 {
    let along = l.spatial.iter().zip(&s.along).map(|(a, s)| {
        let inside: u64 = (0..s.out as u64).map(|p| taps_inside(a, s, p)).sum();
        inside as f64 / (s.out as u64 * a.kernel) as f64
    });
    along.product()
}

fn layer(z: Option<u64>, &(op, [c, y, x, o, kernel, stride, dilation, pads], _): &Case) -> Layer {
    let axis = |size: u64| Axis { size, kernel, stride, dilation, begin: pads, end: pads, ..UNUSED };
    let i = if op == MaxPool { 1 } else { c };
    let axes = if z.is_some() { 3 } else { 2 };
    Layer { c, o, i, spatial: [z.map_or(UNUSED, axis), axis(y), axis(x)], ..Layer::new(op, axes) }
}

/// The sheet's sizes, and the attributes that are not at their defaults.
fn name(sheet: &str, &(_, [.., stride, dilation, pads], note): &Case) -> String {
    let field = |key: &str| sheet.lines().find_map(|line| line.strip_prefix(key)).expect("a sheet has every key");
    let mut name = format!("{} [{}] with [{}]", field("op="), field("input="), field("kernel="));
    for (what, value, default) in [("stride", stride, 1), ("dilation", dilation, 1), ("pads", pads, 0)] {
        if value != default {
            name += &format!(", {what} {value}");
        }
    }
    name + note
}

fn call(z: Option<u64>, case: &Case) -> Call {
    let layer = layer(z, case);
    let shape = judge(layer.op, &layer).expect("a benchmark's layer is accepted");
    let mut r = Random::new(7);
    let mut tensor = |n: u64| -> Vec<f32> { (0..n).map(|_| r.range(0, 2000) as f32 / 16.0 - 60.0).collect() };
    Call { sheet: show_sheet(&layer).into_bytes(), layer, shape, input: tensor(shape.inputs), kernel: tensor(shape.weights) }
}

fn library(call: &Call, out: &mut Outputs) {
    let answer = match call.layer.op {
        Convolution => kozamyure::convolution(&call.sheet, &call.input, &call.kernel, &mut out.values),
        Transposed => kozamyure::transposed(&call.sheet, &call.input, &call.kernel, &mut out.values),
        MaxPool => kozamyure::maxpool(&call.sheet, &call.input, &mut out.values, &mut out.indices),
    };
    assert_eq!(answer, Ok(()));
}

/// At least seven runs each, and more where they are short. They take turns, so that a slow moment of the machine hits all alike. Outputs are spoiled before
/// each run, and compared with the library's after the first.
fn measure(m: &mut Measured) {
    let (call, name) = (&m.call, &m.name);
    let outputs = call.shape.outputs as usize;
    let indices = if call.layer.op == MaxPool { outputs } else { 0 };
    let spoiled = Outputs { values: vec![f32::NAN; outputs], indices: vec![-1; indices] };
    let (mut expected, mut out) = (spoiled.clone(), spoiled.clone());
    library(call, &mut expected);
    let runs = &RUNS[..m.times.len()];
    let (start, mut turns) = (Instant::now(), 0);
    while turns < 7 || start.elapsed() < Duration::from_millis(200) {
        for k in 0..runs.len() {
            // Each turn begins with another one: nothing on the machine keeps in step with one of them.
            let at = (turns + k) % runs.len();
            let (what, run) = runs[at];
            out.clone_from(&spoiled);
            let start = Instant::now();
            run(call, &mut out);
            m.times[at] = m.times[at].min(start.elapsed().as_secs_f64() * 1000.0);
            assert!(turns > 0 || same(&out, &expected), "{what}: other outputs than the library's in {name}");
        }
        turns += 1;
    }
}

fn same(a: &Outputs, b: &Outputs) -> bool {
    a.values.iter().zip(&b.values).all(|(x, y)| x.to_bits() == y.to_bits()) && a.indices == b.indices
}

/// A line of the table.
fn print(m: &Measured) {
    let mut cells = vec![m.name.clone(), m.call.shape.taps.to_string(), m.call.shape.outputs.to_string()];
    cells.extend(m.times.iter().map(|t| format!("{t:.3}")));
    cells.resize(3 + RUNS.len(), "-".to_string());
    cells.push(format!("{:.2}", m.ratio()));
    cells.push(m.share().map_or("-".to_string(), |s| format!("{s:.0} %")));
    let (share, time) = m.inside().map_or(("-".to_string(), "-".to_string()), |(share, time)| (format!("{share:.2} %"), format!("{time:.3}")));
    cells.extend([share, time]);
    println!("| {} |", cells.join(" | "));
}

/// The worst of some calls: the largest ratio, and the smallest share of the limit where there is one.
fn worst<'a>(what: &str, measured: impl Iterator<Item = &'a Measured> + Clone) {
    let ratio = measured.clone().max_by(|a, b| a.ratio().total_cmp(&b.ratio())).expect("a kind has cases");
    println!("{what}: at most {:.2} times plain Rust, {}", ratio.ratio(), ratio.name);
    let shares = measured.filter_map(|m| m.share().map(|s| (s, &m.name)));
    if let Some((share, name)) = shares.min_by(|a, b| a.0.total_cmp(&b.0)) {
        println!("{what}: at least {share:.0} % of the limit, {name}");
    }
}

/// Measures all calls and prints the table and the worst of each operator.
fn run() -> Vec<Measured> {
    let times = RUNS.map(|(what, _)| format!("{what}, ms")).join(" | ");
    println!("| call | taps | outputs | {times} | library / plain Rust | limit / library | taps inside | library, ns a tap inside |");
    println!("|---|---|---|---|---|---|---|---|---|---|---|---|");
    let three_axes = THREE_AXES.iter().map(|(z, case)| Measured::new(Some(*z), case));
    let mut measured: Vec<Measured> = CASES.iter().map(|case| Measured::new(None, case)).chain(three_axes).collect();
    for _ in 0..PASSES {
        measured.iter_mut().for_each(measure);
    }
    measured.iter().for_each(print);
    println!();
    worst("all", measured.iter());
    for (op, what) in [(Convolution, "convolution"), (Transposed, "transposed"), (MaxPool, "maxpool")] {
        worst(what, measured.iter().filter(|m| m.call.layer.op == op));
    }
    measured
}

/// The best times of some convolutions in both profiles, which take turns.
fn print_profiles() {
    println!("\n| call | taps | outputs | running, ms | halved, ms | halved / running |\n|---|---|---|---|---|---|");
    for Measured { call, name, .. } in BOTH_PROFILES.iter().map(|case| Measured::new(None, case)) {
        let mut output = vec![f32::NAN; call.shape.outputs as usize];
        let (start, mut best) = (Instant::now(), [f64::INFINITY; 2]);
        while start.elapsed() < Duration::from_millis(500) {
            for (profile, best) in PROFILES.into_iter().zip(&mut best) {
                let start = Instant::now();
                assert_eq!(sums(Convolution, profile)(&call.sheet, &call.input, &call.kernel, &mut output).number, 0);
                *best = best.min(start.elapsed().as_secs_f64() * 1000.0);
            }
        }
        let [running, halved] = best;
        println!("| {name} | {} | {} | {running:.3} | {halved:.3} | {:.1} |", call.shape.taps, call.shape.outputs, halved / running);
    }
    println!();
}

fn main() -> ExitCode {
    let paths: Vec<String> = std::env::args().skip(1).collect();
    if paths.len() > 1 {
        eprintln!("usage: benchmark [CHART.svg]");
        return ExitCode::from(2);
    }
    let rows: Vec<Row> = run().iter().map(|m| Row { name: m.name.clone(), ratio: m.ratio(), operator: m.call.layer.op }).collect();
    for path in paths {
        if let Err(e) = std::fs::write(&path, chart(&rows)) {
            eprintln!("benchmark: cannot write {path}: {e}");
            return ExitCode::FAILURE;
        }
    }
    print_profiles();
    if !distance::print() {
        eprintln!("benchmark: a distance is above its bound");
        return ExitCode::FAILURE;
    }
    ExitCode::SUCCESS
}
