//! The boundary's own answers, refusals included: each function hands its slices over and gives the boundary's struct back as it is.
#![allow(unsafe_code)]
use crate::boundary;
pub use crate::boundary::{Answer, LengthsAnswer, Part, PeakAnswer, ShapeAnswer, Written};

// The boundary asks for pointers that are good for their lengths and aligned, and for buffers that overlap no other where it writes. Slices are all of this.

/// The version of the archive: major * 10,000 + minor * 100 + patch.
pub fn version() -> u32 {
    unsafe { boundary::koza_version() }
}

/// The boundary's convolutions, which take the same.
type Sums = unsafe extern "C" fn(*const u8, usize, *const f32, usize, *const f32, usize, *mut f32, usize) -> Answer;

fn sums(of: Sums, sheet: &[u8], input: &[f32], kernel: &[f32], output: &mut [f32]) -> Answer {
    unsafe {
        of(
            sheet.as_ptr(), sheet.len(),
            input.as_ptr(), input.len(),
            kernel.as_ptr(), kernel.len(),
            output.as_mut_ptr(), output.len(),
        )
    }
}

/// Convolution: numbers 0 to 6, 8, 9 and 20 to 23. `output` is written only with number 0.
pub fn convolution(sheet: &[u8], input: &[f32], kernel: &[f32], output: &mut [f32]) -> Answer {
    sums(boundary::koza_convolution, sheet, input, kernel, output)
}

/// Convolution with halved sums: the answers of [`convolution`]. `output` is written only with number 0.
pub fn convolution_halved(sheet: &[u8], input: &[f32], kernel: &[f32], output: &mut [f32]) -> Answer {
    sums(boundary::koza_convolution_halved, sheet, input, kernel, output)
}

/// Transposed convolution: numbers 0 to 6, 8, 9 and 20 to 23. `output` is written only with number 0.
pub fn transposed(sheet: &[u8], input: &[f32], kernel: &[f32], output: &mut [f32]) -> Answer {
    sums(boundary::koza_transposed, sheet, input, kernel, output)
}

/// Max pooling, MaxPool-8 or MaxPool-14 by the sheet: numbers 0 to 2, 4 to 9 and 20 to 23. `values` and `indices` are written only with number 0.
pub fn maxpool(sheet: &[u8], input: &[f32], values: &mut [f32], indices: &mut [i64]) -> Answer {
    unsafe {
        boundary::koza_maxpool(
            sheet.as_ptr(), sheet.len(),
            input.as_ptr(), input.len(),
            values.as_mut_ptr(), values.len(),
            indices.as_mut_ptr(), indices.len(),
        )
    }
}

/// The output's sizes: numbers 0 to 7 and 20 to 23.
pub fn shape(sheet: &[u8]) -> ShapeAnswer {
    unsafe { boundary::koza_shape(sheet.as_ptr(), sheet.len()) }
}

/// The lengths of the buffers that the sheet's operator takes: numbers 0 to 7 and 20 to 23.
pub fn lengths(sheet: &[u8]) -> LengthsAnswer {
    unsafe { boundary::koza_lengths(sheet.as_ptr(), sheet.len()) }
}

/// The sheet read and written back: numbers 0 and 20 to 24. `buffer` is written only with number 0, and then its first `length` bytes alone.
pub fn rewrite(sheet: &[u8], buffer: &mut [u8]) -> Written {
    unsafe { boundary::koza_rewrite(sheet.as_ptr(), sheet.len(), buffer.as_mut_ptr(), buffer.len()) }
}

/// Where the plane at an image, a channel and a depth of the tensor \[N, C, Z, Y, X\] lies; zeros where it is refused.
pub fn plane(tensor: &[f32], [n, c, z, y, x]: [u32; 5], image: u32, channel: u32, depth: u32) -> Part {
    unsafe { boundary::koza_plane(tensor.as_ptr(), tensor.len(), n, c, z, y, x, image, channel, depth) }
}

/// The first largest element of a plane with rows of `width` elements: numbers 0, 8 and 9.
pub fn peak(plane: &[f32], width: usize) -> PeakAnswer {
    unsafe { boundary::koza_peak(plane.as_ptr(), plane.len(), width) }
}
