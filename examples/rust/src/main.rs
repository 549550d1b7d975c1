//! Finds the mark in a small picture: a convolution brings it out, max pooling says where it is, a transposed convolution spreads the map back.
//! usage: marks CONVOLUTION.sheet MAXPOOL.sheet TRANSPOSED.sheet
use kozamyure::{Error, Lengths, Peak, Shape};
use std::process::exit;

/// A sheet that was accepted, with the lengths of its buffers and the sizes of its output.
struct Layer {
    sheet: Vec<u8>,
    lengths: Lengths,
    shape: Shape,
}

impl Layer {
    fn open(path: &str) -> Layer {
        let sheet = std::fs::read(path).unwrap_or_else(|e| {
            eprintln!("marks: cannot read {path}: {e}");
            exit(2)
        });
        let lengths = done(path, kozamyure::lengths(&sheet));
        let shape = done(path, kozamyure::shape(&sheet));
        Layer { sheet, lengths, shape }
    }

    /// Prints where the first plane of the layer's output has its largest element.
    fn peak(&self, name: &str, output: &[f32]) -> Peak {
        let plane = kozamyure::plane(output, self.shape.sizes(), 0, 0, 0);
        let peak = done(name, kozamyure::peak(plane, self.shape.x as usize));
        println!("{name}: peak {} at row {}, column {}", peak.value, peak.row, peak.column);
        peak
    }
}

/// What a call gives. A refusal is told, with its number, its meaning and where the fault is, and ends the program.
fn done<T>(name: &str, result: Result<T, Error>) -> T {
    result.unwrap_or_else(|e| {
        eprintln!("marks: {name} is refused with {e}");
        exit(1)
    })
}

fn main() {
    let paths: Vec<String> = std::env::args().skip(1).collect();
    let [conv, pool, trans] = paths.as_slice() else {
        eprintln!("usage: marks CONVOLUTION.sheet MAXPOOL.sheet TRANSPOSED.sheet");
        exit(2)
    };
    let (conv, pool, trans) = (Layer::open(conv), Layer::open(pool), Layer::open(trans));

    // A picture of 8 rows by 12 columns with a bright cross at row 5, column 8.
    const WIDTH: usize = 12;
    let mut picture: Vec<f32> = (0..8 * WIDTH).map(|i| (i % 3) as f32).collect();
    for (row, column) in [(5, 8), (4, 8), (6, 8), (5, 7), (5, 9)] {
        picture[row * WIDTH + column] = 50.0;
    }
    let cross = [-1.0, 2.0, -1.0, 2.0, 3.0, 2.0, -1.0, 2.0, -1.0];
    let spread = [1.0; 4];

    let mut marks = vec![0.0; conv.lengths.output];
    done("convolution", kozamyure::convolution(&conv.sheet, &picture, &cross, &mut marks));
    conv.peak("convolution", &marks);

    let (mut values, mut indices) = (vec![0.0; pool.lengths.output], vec![0; pool.lengths.output]);
    done("maxpool", kozamyure::maxpool(&pool.sheet, &marks, &mut values, &mut indices));
    let best = pool.peak("maxpool", &values);
    let place = indices[best.row * pool.shape.x as usize + best.column] as usize;
    println!("the mark is at row {}, column {}", place / WIDTH, place % WIDTH);

    let mut map = vec![0.0; trans.lengths.output];
    done("transposed", kozamyure::transposed(&trans.sheet, &values, &spread, &mut map));
    trans.peak("transposed", &map);

    print_refusals(&conv, &picture, &cross, &mut marks);
}

/// Calls that are refused change nothing. How many elements are bad tells a few specks from a camera that has failed.
fn print_refusals(conv: &Layer, picture: &[f32], cross: &[f32], marks: &mut [f32]) {
    let mut specks = picture.to_vec();
    for place in [17, 40, 95] {
        specks[place] = f32::NAN;
    }
    if let Err(e) = kozamyure::convolution(&conv.sheet, &picture[1..], cross, marks) {
        println!("one element too few: number {}", e.number);
    }
    if let Err(e) = kozamyure::convolution(&conv.sheet, &specks, cross, marks) {
        println!("three elements NaN: number {}, {} bad elements, the first at {}", e.number, e.bad, e.place);
    }
}
