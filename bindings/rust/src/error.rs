//! Refusals: a number of document 01's table, what it means, and where the fault is.
use std::fmt;

/// Which tensor holds bad elements.
#[derive(Debug, Clone, Copy, PartialEq, Eq)]
pub enum Tensor {
    /// The input of an operator.
    Input,
    /// The kernel of a convolution.
    Kernel,
    /// The plane that the peak finder was given.
    Plane,
}

/// A refused call. It changed no element of any lent buffer. What a number does not use is 0 or `None`.
#[derive(Debug, Clone, Copy, PartialEq, Eq)]
pub struct Error {
    /// The number: 1 to 9, or 20 to 24.
    pub number: u32,
    /// The sheet's line, for 20 to 23, counted from its first, which may be a version line.
    pub line: u32,
    /// The tensor with bad elements, for 9. The kernel is not looked at when the input is bad.
    pub tensor: Option<Tensor>,
    /// The place of its first bad element, for 9.
    pub place: usize,
    /// The number of its bad elements, for 9.
    pub bad: usize,
}

impl Error {
    /// A refusal, unless its number is 0.
    pub(crate) fn check(self) -> Result<(), Error> {
        if self.number == 0 { Ok(()) } else { Err(self) }
    }

    /// A refusal that looks at no element, unless its number is 0.
    pub(crate) fn check_sheet(number: u32, line: u32) -> Result<(), Error> {
        Error { number, line, tensor: None, place: 0, bad: 0 }.check()
    }
}

impl std::error::Error for Error {}

impl fmt::Display for Error {
    fn fmt(&self, f: &mut fmt::Formatter<'_>) -> fmt::Result {
        write!(f, "number {}: {}", self.number, text(self.number))?;
        let tensor = match self.tensor {
            Some(Tensor::Input) => "the input has ",
            Some(Tensor::Kernel) => "the kernel has ",
            Some(Tensor::Plane) => "the plane has ",
            None => "",
        };
        match (self.number, self.bad) {
            (9, 1) => write!(f, "; {tensor}1 bad element, at {}", self.place),
            (9, bad) => write!(f, "; {tensor}{bad} bad elements, the first at {}", self.place),
            (20..=23, _) => write!(f, "; at line {}", self.line),
            _ => Ok(()),
        }
    }
}

/// What a number means, in the words of `koza_text`. A number that the library does not have gets a text that says so.
pub fn text(number: u32) -> &'static str {
    match number {
        0 => "done: every output element is written",
        1 => "axes is not 1, 2 or 3, or a dimension that the operator uses is outside its limit",
        2 => {
            "an attribute outside its limit, a sheet of another operator, a same mode with transposed, axis outside its range, or an unused field not at its \
             default"
        }
        3 => "C is not G*I",
        4 => "more than 4,096 taps, or more than 16,777,216 elements in input or kernel",
        5 => "the kernel does not fit on some axis, or a transposed output size is below 1",
        6 => "more than 16,777,216 output elements",
        7 => "pooling: some window holds no element",
        8 => "a buffer's length is not exactly its element count (elements, not bytes: koza_lengths tells them)",
        9 => "an element above 2^40 in magnitude or NaN",
        20 => "the sheet: a wrong key or no line end, or bytes left over (line 13, or 14 with a version line)",
        21 => "the sheet: a number, or a count of numbers, that breaks the rules, or a version line other than version=14",
        22 => "the sheet: an unknown word, as is ceil_torch without a version line",
        23 => "the sheet: a line that its operator does not use is not at its default, or a version line before another operator than maxpool",
        24 => "the buffer is shorter than the sheet",
        _ => "no number of this library",
    }
}
