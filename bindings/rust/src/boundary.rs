//! The C boundary of the library, word for word as `include/kozamyure.h` declares it.

/// `line` for 20 to 23, counted from the sheet's first line, which may be a version line; for 9 `tensor` (0 input, looked at first; 1 kernel), the first bad
/// `place` in it and how many of its elements are `bad`. The kernel is not looked at when the input is bad. What a number does not use is 0.
#[repr(C)]
#[derive(Clone, Copy, Debug, PartialEq, Eq)]
pub struct Answer {
    /// The number, 0 where every output element is written.
    pub number: u32,
    /// The sheet's line.
    pub line: u32,
    /// The tensor with bad elements.
    pub tensor: u32,
    /// The first bad element's place.
    pub place: usize,
    /// The number of bad elements.
    pub bad: usize,
}

/// The output's sizes; zeros but for `number` and `line` where the call is refused. `z` is 1 where the sheet has fewer than three axes, and `y` where it has
/// one.
#[repr(C)]
#[derive(Clone, Copy, Debug, PartialEq, Eq)]
pub struct ShapeAnswer {
    /// The number, 0 where the sheet is accepted.
    pub number: u32,
    /// The sheet's line.
    pub line: u32,
    /// The number of spatial axes.
    pub axes: u32,
    /// Images.
    pub n: u32,
    /// Channels.
    pub c: u32,
    /// Depths.
    pub z: u32,
    /// Rows.
    pub y: u32,
    /// Columns.
    pub x: u32,
}

/// The element counts of the buffers that a call takes; zeros but for `number` and `line` where it is refused. `kernel` is 0 for maxpool, whose values and
/// indices have `output` elements each.
#[repr(C)]
#[derive(Clone, Copy, Debug, PartialEq, Eq)]
pub struct LengthsAnswer {
    /// The number, 0 where the sheet is accepted.
    pub number: u32,
    /// The sheet's line.
    pub line: u32,
    /// Elements of the input.
    pub input: usize,
    /// Elements of the kernel.
    pub kernel: usize,
    /// Elements of each output.
    pub output: usize,
}

/// The first largest element of a plane; zeros but for `number` and, for 9, the first bad `place` and how many elements are `bad` where the call is refused.
#[repr(C)]
#[derive(Clone, Copy, Debug, PartialEq)]
pub struct PeakAnswer {
    /// The number, 0 where there is a peak.
    pub number: u32,
    /// The first bad element's place.
    pub place: usize,
    /// The number of bad elements.
    pub bad: usize,
    /// The largest element, with its own bits.
    pub value: f32,
    /// Its row.
    pub row: usize,
    /// Its column.
    pub column: usize,
}

/// The length of the sheet that was written; 0 where the call is refused. `line` for 20 to 23.
#[repr(C)]
#[derive(Clone, Copy, Debug, PartialEq, Eq)]
pub struct Written {
    /// The number, 0 where the sheet is written.
    pub number: u32,
    /// The sheet's line.
    pub line: u32,
    /// Bytes written.
    pub length: usize,
}

/// A part of a tensor, in elements; `length` 0 and `start` 0 where it is refused.
#[repr(C)]
#[derive(Clone, Copy, Debug, PartialEq, Eq)]
pub struct Part {
    /// Elements before the part.
    pub start: usize,
    /// Elements of the part.
    pub length: usize,
}

extern "C" {
    pub fn koza_version() -> u32;
    pub fn koza_convolution(
        sheet: *const u8, sheet_len: usize,
        input: *const f32, input_len: usize,
        kernel: *const f32, kernel_len: usize,
        output: *mut f32, output_len: usize,
    ) -> Answer;
    pub fn koza_convolution_halved(
        sheet: *const u8, sheet_len: usize,
        input: *const f32, input_len: usize,
        kernel: *const f32, kernel_len: usize,
        output: *mut f32, output_len: usize,
    ) -> Answer;
    pub fn koza_transposed(
        sheet: *const u8, sheet_len: usize,
        input: *const f32, input_len: usize,
        kernel: *const f32, kernel_len: usize,
        output: *mut f32, output_len: usize,
    ) -> Answer;
    pub fn koza_maxpool(
        sheet: *const u8, sheet_len: usize,
        input: *const f32, input_len: usize,
        values: *mut f32, values_len: usize,
        indices: *mut i64, indices_len: usize,
    ) -> Answer;
    pub fn koza_shape(sheet: *const u8, sheet_len: usize) -> ShapeAnswer;
    pub fn koza_lengths(sheet: *const u8, sheet_len: usize) -> LengthsAnswer;
    pub fn koza_rewrite(sheet: *const u8, sheet_len: usize, buffer: *mut u8, buffer_len: usize) -> Written;
    pub fn koza_plane(
        tensor: *const f32, tensor_len: usize,
        n: u32, c: u32, z: u32, y: u32, x: u32,
        image: u32, channel: u32, depth: u32,
    ) -> Part;
    pub fn koza_peak(plane: *const f32, plane_len: usize, width: usize) -> PeakAnswer;
}
