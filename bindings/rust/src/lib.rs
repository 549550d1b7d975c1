//! Convolution, transposed convolution and max pooling with indices over lent `f32` tensors: safe functions over slices for the proved library
//! Kozamyure.
//!
//! A call takes the text of a layer sheet and the tensors. A sheet has twelve `key=value` lines, and for MaxPool-14 a line `version=14` in front of them;
//! see the library's README. No caller need check sheet, sizes, lengths or elements first: every call is answered for any slices and numbers, nothing
//! panics, and a call that gives an [`Error`] leaves every lent buffer as it was.
//!
//! ```no_run
//! # fn main() -> Result<(), Box<dyn std::error::Error>> {
//! let sheet = std::fs::read("convolution.sheet")?;
//! let lengths = kozamyure::lengths(&sheet)?;
//! let (input, kernel) = (vec![1.0; lengths.input], vec![0.5; lengths.kernel]);
//! let mut output = vec![0.0; lengths.output];
//! kozamyure::convolution(&sheet, &input, &kernel, &mut output)?;
//!
//! let shape = kozamyure::shape(&sheet)?;
//! let plane = kozamyure::plane(&output, shape.sizes(), 0, 0, 0);
//! let peak = kozamyure::peak(plane, shape.x as usize)?;
//! println!("{} at row {}, column {}", peak.value, peak.row, peak.column);
//! # Ok(())
//! # }
//! ```
//!
//! What a call leaves for one of the N images of an input depends on the function, the sheet, that image and the kernel alone, and is what the call on it
//! alone leaves, with N 1; but an index with axis 0 or -R, R being the number of axes plus 2, counts the images before its own. A bad element in any image
//! refuses the whole call.
//!
//! What is proved holds under the assumptions of `include/kozamyure.h`. Slices and the rules of borrowing exclude most faults: pointers are good for
//! their lengths and aligned, and a buffer that is written overlaps no other and is used by no other thread. These assumptions remain:
//!  - The floating-point environment of the thread is the default one: rounding to nearest, no flush to zero, exceptions masked. Rust assumes it too,
//!    but C code in the same program, or the option `-ffast-math` at its linking, may set another. [`float_mode_ok`] tells of the first two.
//!  - The target is x86-64 Linux.
//!  - The archive that is linked has the version of these bindings. [`version`] tells.
//!
//! [`answers`] has the same calls with the boundary's own structs. The build links `libkozamyure.a` from `crates/kozamyure/out` of the library's folder, or
//! from the folder that the variable KOZAMYURE_LIB names by its whole path.
#![deny(missing_docs, unsafe_code)]
use std::hint::black_box;

pub mod answers;
mod boundary;
mod error;

pub use answers::version;
pub use error::{text, Error, Tensor};

/// A buffer of this many bytes has room for every sheet.
pub const SHEET_MAX: usize = 512;

/// The sizes of an output. `z` is 1 where the sheet has fewer than three axes, and `y` where it has one.
#[derive(Debug, Clone, Copy, PartialEq, Eq)]
pub struct Shape {
    /// The number of spatial axes, 1 to 3.
    pub axes: u32,
    /// Images.
    pub n: u32,
    /// Channels.
    pub c: u32,
    /// Depths.
    pub z: u32,
    /// Rows.
    pub y: u32,
    /// Columns.
    pub x: u32,
}

impl Shape {
    /// N, C, Z, Y and X, as [`plane`] takes them.
    pub fn sizes(&self) -> [u32; 5] {
        [self.n, self.c, self.z, self.y, self.x]
    }
}

/// The element counts of the buffers that a call takes.
#[derive(Debug, Clone, Copy, PartialEq, Eq)]
pub struct Lengths {
    /// Elements of the input.
    pub input: usize,
    /// Elements of the kernel, 0 for maxpool.
    pub kernel: usize,
    /// Elements of the output; of values and of indices for maxpool.
    pub output: usize,
}

/// The first largest element of a plane.
#[derive(Debug, Clone, Copy, PartialEq)]
pub struct Peak {
    /// The element, with its own bits.
    pub value: f32,
    /// Its row.
    pub row: usize,
    /// Its column.
    pub column: usize,
}

/// Reads the sheet, makes checks 1 to 7 of its own operator and gives the output's sizes. Refused with 1 to 7 and 20 to 23.
pub fn shape(sheet: &[u8]) -> Result<Shape, Error> {
    let a = answers::shape(sheet);
    Error::check_sheet(a.number, a.line)?;
    Ok(Shape { axes: a.axes, n: a.n, c: a.c, z: a.z, y: a.y, x: a.x })
}

/// Reads the sheet, makes checks 1 to 7 of its own operator and gives the lengths of its buffers. Refused with 1 to 7 and 20 to 23.
pub fn lengths(sheet: &[u8]) -> Result<Lengths, Error> {
    let a = answers::lengths(sheet);
    Error::check_sheet(a.number, a.line)?;
    Ok(Lengths { input: a.input, kernel: a.kernel, output: a.output })
}

/// Writes every element of the output \[N, G·O, OZ, OY, OX\] from the input \[N, C, Z, Y, X\] and the kernel \[G, O, I, KZ, KY, KX\], all row-major; with
/// two axes every Z is left out, with one every Z and Y. Refused with 1 to 6, 8, 9 and 20 to 23; the output is then as it was.
pub fn convolution(sheet: &[u8], input: &[f32], kernel: &[f32], output: &mut [f32]) -> Result<(), Error> {
    written(answers::convolution(sheet, input, kernel, output))
}

/// As [`convolution`], in refusals too, but with another summing profile, so that bits may differ. The K = I·KZ·KY·KX taps of an output, by i, kz, ky, kx
/// rising, those outside the input as +0, are cut in two, the first part having the larger half, each half is summed the same way, and the two results are
/// added; a single tap is its product added to +0. Take it for kernels of many taps over whole numbers: where every element is one, of magnitude up to
/// 4,096, an output is at most K·h from the exact sum, h being the smallest with 2^h >= K, and also at most the (K - 1)·(K + 2)/2 of [`convolution`]. That
/// is 36 against 44 for K 9, 525 against 2,849 for 75, 3,600 against 80,199 for 400, 49,152 against 8,390,655 for 4,096. Where the magnitudes of an
/// output's products total at most 16,777,216 both are exact. It takes 50 to 130 times as long.
pub fn convolution_halved(sheet: &[u8], input: &[f32], kernel: &[f32], output: &mut [f32]) -> Result<(), Error> {
    written(answers::convolution_halved(sheet, input, kernel, output))
}

/// As [`convolution`], with the kernel \[G, I, O, KZ, KY, KX\].
pub fn transposed(sheet: &[u8], input: &[f32], kernel: &[f32], output: &mut [f32]) -> Result<(), Error> {
    written(answers::transposed(sheet, input, kernel, output))
}

/// Writes every element of values and indices \[N, C, OZ, OY, OX\] from the input \[N, C, Z, Y, X\]; with two axes every Z is left out, with one every Z
/// and Y. This is MaxPool-8, or MaxPool-14 where the sheet has a version line. Refused with 1, 2, 4 to 9 and 20 to 23; both are then as they were.
pub fn maxpool(sheet: &[u8], input: &[f32], values: &mut [f32], indices: &mut [i64]) -> Result<(), Error> {
    written(answers::maxpool(sheet, input, values, indices))
}

fn written(a: answers::Answer) -> Result<(), Error> {
    let tensor = if a.tensor == 0 { Tensor::Input } else { Tensor::Kernel };
    Error { number: a.number, line: a.line, tensor: (a.number == 9).then_some(tensor), place: a.place, bad: a.bad }.check()
}

/// Reads the sheet, writes it back at the start of the buffer and gives its length in bytes; nothing beyond is touched. Refused with 20 to 24; the
/// buffer is then as it was.
pub fn rewrite(sheet: &[u8], buffer: &mut [u8]) -> Result<usize, Error> {
    let a = answers::rewrite(sheet, buffer);
    Error::check_sheet(a.number, a.line)?;
    Ok(a.length)
}

/// The plane of rows and columns at an image, a channel and a depth of the tensor \[N, C, Z, Y, X\], as that part of the caller's own slice. Sizes of
/// axes that the tensor lacks are 1, so its depth is 0. The plane is the empty part where a size is outside its limit, the length is not N·C·Z·Y·X, or
/// image, channel or depth is not below its count. The limits are those of an input: an output can have more than 1,024 channels, or more than 4,096
/// depths, rows or columns, and its planes are then refused. A tensor of more than 16,777,216 elements is taken. No element is looked at.
pub fn plane(tensor: &[f32], sizes: [u32; 5], image: u32, channel: u32, depth: u32) -> &[f32] {
    let part = answers::plane(tensor, sizes, image, channel, depth);
    tensor.get(part.start..).and_then(|t| t.get(..part.length)).unwrap_or_default()
}

/// The first largest element of a plane with rows of `width` elements. Refused with 8 where width is 0, there is no element or the length is no
/// multiple of the width, and with 9, the first bad place and the number of bad elements where an element is bad.
pub fn peak(plane: &[f32], width: usize) -> Result<Peak, Error> {
    let a = answers::peak(plane, width);
    Error { number: a.number, line: 0, tensor: (a.number == 9).then_some(Tensor::Plane), place: a.place, bad: a.bad }.check()?;
    Ok(Peak { value: a.value, row: a.row, column: a.column })
}

/// Whether the floating-point mode of this thread is the one that the promises assume: rounding to nearest, subnormal numbers kept in operands and
/// results. Not proved.
pub fn float_mode_ok() -> bool {
    // The mode takes part only in what is computed while the program runs.
    let sum = |a: f32, b: f32| black_box(black_box(a) + black_box(b)).to_bits();
    let product = |a: f32, b: f32| black_box(black_box(a) * black_box(b)).to_bits();
    let next = |k: u32| f32::from_bits(1.0f32.to_bits() + k);
    let half = f32::EPSILON / 2.0;
    // Halfway between 1 and the next float, 1 is even; halfway between the next two, the upper one.
    let nearest = sum(1.0, half) == next(0).to_bits() && sum(next(1), half) == next(2).to_bits();
    // A subnormal result, and a subnormal operand: 2^-126 * 2^-1, and 2^-149 * 2^23.
    let subnormal = product(f32::MIN_POSITIVE, 0.5) == 0x0040_0000 && product(f32::from_bits(1), 8_388_608.0) == f32::MIN_POSITIVE.to_bits();
    nearest && subnormal
}
