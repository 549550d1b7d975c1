//! How far the sums of convolutions of whole numbers are from the exact ones, by profile: the largest distance seen over many calls, beside demand 3's bounds.
use crate::functions::sums;
use crate::generate::Random;
use crate::reference::{allowed_distance, judge, show_sheet, Axis, Layer, Op, Profile, PROFILES, UNUSED};

/// Channels and the kernel along Y and X of K taps: 9, 75, 400 and 4,096.
const KERNELS: [[u64; 2]; 4] = [[1, 3], [3, 5], [16, 5], [64, 8]];

/// The largest element of demand 3's premise.
const MOST: u64 = 4096;

/// Outputs of a call; all share its input, and each has weights of its own.
const OUTPUTS: u64 = 32;

/// Products of all calls with one K and one way of drawing elements.
const PRODUCTS: u64 = 1 << 20;

/// How the elements of a call are drawn.
#[derive(Clone, Copy)]
enum Elements {
    AnySign,
    Positive,
    /// Large ones, each weight the one of some under which the profile's sums lose most.
    Against(Profile),
}

const ELEMENTS: [(Elements, &str); 4] = [
    (Elements::AnySign, "of either sign"),
    (Elements::Positive, "positive"),
    (Elements::Against(Profile::Running), "chosen against running sums"),
    (Elements::Against(Profile::Halved), "chosen against halved sums"),
];

/// One output for each channel: the kernel is as large as the input.
fn layer([i, side]: [u64; 2]) -> Layer {
    let axis = Axis { size: side, kernel: side, ..UNUSED };
    Layer { c: i, o: OUTPUTS, i, spatial: [UNUSED, axis, axis], ..Layer::new(Op::Convolution, 2) }
}

/// How many sums are done with each tap: a run of taps has two parts, and its sum is done with the last tap of the second.
fn sums_done(profile: Profile, taps: usize) -> Vec<usize> {
    if taps == 1 {
        return vec![0];
    }
    let second = if profile == Profile::Running { 1 } else { taps / 2 };
    let mut done = [sums_done(profile, taps - second), sums_done(profile, second)].concat();
    done[taps - 1] += 1;
    done
}

fn large(r: &mut Random) -> f32 {
    r.range(MOST - 96, MOST) as f32
}

/// Weights for an input under which the sums lose much: each tap's is the best of some for the sums that are done with it.
fn weights_against(r: &mut Random, input: &[f32], sums_done: &[usize]) -> Vec<f32> {
    // The sums of first parts whose second parts are not done.
    let mut firsts: Vec<f32> = Vec::new();
    let mut weight = |(value, done): (&f32, &usize)| {
        let add = |weight: f32| {
            let (mut sum, mut lost) = (value * weight, 0);
            for first in firsts.iter().rev().take(*done) {
                let exact = *first as i64 + sum as i64;
                sum += first;
                lost += exact - sum as i64;
            }
            (lost, sum, weight)
        };
        let (_, sum, weight) = (0..32).map(|_| add(large(r))).max_by_key(|(lost, ..)| *lost).expect("there are some weights");
        firsts.truncate(firsts.len() - done);
        firsts.push(sum);
        weight
    };
    input.iter().zip(sums_done).map(&mut weight).collect()
}

/// An input and the weights of all outputs.
fn tensors(r: &mut Random, elements: Elements, taps: usize) -> (Vec<f32>, Vec<f32>) {
    let mut drawn = |count: usize| -> Vec<f32> {
        let mut element = || match elements {
            Elements::AnySign => r.range(0, 2 * MOST) as f32 - MOST as f32,
            Elements::Positive => r.range(0, MOST) as f32,
            Elements::Against(_) => large(r),
        };
        (0..count).map(|_| element()).collect()
    };
    let input = drawn(taps);
    let kernel = match elements {
        Elements::Against(profile) => {
            let done = sums_done(profile, taps);
            (0..OUTPUTS).flat_map(|_| weights_against(r, &input, &done)).collect()
        }
        _ => drawn(taps * OUTPUTS as usize),
    };
    (input, kernel)
}

/// The largest distance in the outputs of some calls, for each profile.
fn largest(r: &mut Random, kernel: [u64; 2], elements: Elements) -> [u64; 2] {
    let layer = layer(kernel);
    let (shape, sheet) = (judge(layer.op, &layer).expect("a small layer"), show_sheet(&layer).into_bytes());
    let mut largest = [0; 2];
    for _ in 0..PRODUCTS / shape.weights {
        let (input, kernel) = tensors(r, elements, shape.taps as usize);
        for (profile, largest) in PROFILES.into_iter().zip(&mut largest) {
            let mut output = [f32::NAN; OUTPUTS as usize];
            assert_eq!(sums(layer.op, profile)(&sheet, &input, &kernel, &mut output).number, 0);
            for (weights, sum) in kernel.chunks(input.len()).zip(output) {
                let exact: i64 = input.iter().zip(weights).map(|(v, w)| *v as i64 * *w as i64).sum();
                *largest = exact.abs_diff(sum as i64).max(*largest);
            }
        }
    }
    largest
}

/// Prints the distances; whether all are within their bounds.
pub fn print() -> bool {
    let mut r = Random::new(7);
    let mut within = true;
    println!("| taps | whole numbers up to {MOST} | running: largest distance | its bound | halved: largest distance | its bound |");
    println!("|---|---|---|---|---|---|");
    for kernel @ [i, side] in KERNELS {
        let taps = i * side * side;
        let bounds = PROFILES.map(|profile| allowed_distance(profile, taps));
        for (elements, name) in ELEMENTS {
            let seen = largest(&mut r, kernel, elements);
            within &= seen.iter().zip(bounds).all(|(seen, most)| *seen <= most);
            println!("| {taps} | {name} | {} | {} | {} | {} |", seen[0], bounds[0], seen[1], bounds[1]);
        }
    }
    within
}
