//! Compares the bindings with `include/kozamyure.h` and document 01: the text of every number, the versions, and each function accepted and refused. What the
//! functions give is written out here, from the header and the document. The first difference ends the program.
//! usage: bindings [REPOSITORY]
use kozamyure::{convolution, convolution_halved, lengths, maxpool, peak, plane, rewrite, shape, transposed, Error, Lengths, Peak, Shape, Tensor, SHEET_MAX};
use std::collections::BTreeMap;
use std::fmt::Debug;
use std::process::exit;

fn fail(what: &str) -> ! {
    eprintln!("bindings: {what}");
    exit(1)
}

/// The comparisons so far.
#[derive(Default)]
struct Compared {
    count: usize,
}

impl Compared {
    fn same<T: Debug + PartialEq>(&mut self, what: &str, got: T, expected: T) {
        self.count += 1;
        if got != expected {
            fail(&format!("{what}: {got:?}, expected {expected:?}"));
        }
    }

    /// The text of a refusal, as a caller prints it that takes any error.
    fn refused<T: Debug>(&mut self, result: Result<T, Error>, expected: &str) {
        let error: Box<dyn std::error::Error> = result.map_or_else(Box::new, |given| fail(&format!("{given:?}, expected {expected:?}")));
        self.same("a refusal", error.to_string().as_str(), expected);
    }
}

// ---- the header

/// What stands after `from`, up to the next `to`.
fn between<'a>(file: &'a str, from: &str, to: &str) -> &'a str {
    let part = file.split_once(from).and_then(|(_, rest)| rest.split_once(to));
    part.map_or_else(|| fail(&format!("no {from:?} with {to:?} after it")), |(part, _)| part)
}

fn number(text: &str) -> u32 {
    text.trim().parse().unwrap_or_else(|e| fail(&format!("{text:?} is no number: {e}")))
}

fn defined(header: &str, name: &str) -> u32 {
    number(between(header, &format!("#define {name} "), "\n"))
}

/// The numbers of the header's enum by their names.
fn numbers(header: &str) -> BTreeMap<&str, u32> {
    let entries = between(header, "enum koza_number {", "};").split(',');
    entries.filter_map(|e| e.split_once('=')).map(|(name, value)| (name.trim(), number(value))).collect()
}

/// The strings of a return statement, joined.
fn returned(statement: &str) -> String {
    if statement.contains('\\') {
        fail(&format!("a backslash in {statement:?}"));
    }
    between(statement, "return ", ";\n").split('"').skip(1).step_by(2).collect()
}

/// The texts of koza_text by number, and the text of all other numbers.
fn texts(header: &str) -> (BTreeMap<u32, String>, String) {
    let body = between(header, "koza_text(uint32_t number) {", "\n}\n");
    let (cases, other) = body.split_once("default:").unwrap_or_else(|| fail("koza_text has no default"));
    let numbers = numbers(header);
    let mut texts = BTreeMap::new();
    for case in cases.split("case ").skip(1) {
        let (name, statement) = case.split_once(':').unwrap_or_else(|| fail(&format!("no colon in {case:?}")));
        let number = numbers.get(name).unwrap_or_else(|| fail(&format!("no number {name}")));
        texts.insert(*number, returned(statement));
    }
    if texts.len() != numbers.len() {
        fail("koza_text has not one case for each number");
    }
    (texts, returned(other))
}

// ---- texts and versions

/// Every number's text, with the line or the bad elements only where the number uses them.
fn check_texts(c: &mut Compared, header: &str) {
    let (texts, other) = texts(header);
    for number in (0..=30).chain([u32::MAX]) {
        let text = texts.get(&number).unwrap_or(&other);
        let place = match number {
            9 => "; the kernel has 3 bad elements, the first at 17",
            20..=23 => "; at line 7",
            _ => "",
        };
        let error = Error { number, line: 7, tensor: Some(Tensor::Kernel), place: 17, bad: 3 };
        c.same("the text of an error", error.to_string(), format!("number {number}: {text}{place}"));
        c.same("the text of a number", kozamyure::text(number), text);
    }
}

/// The versions of header, archive and bindings, and the length of the longest sheet.
fn check_versions(c: &mut Compared, header: &str, manifest: &str) {
    let [major, minor, patch] = ["MAJOR", "MINOR", "PATCH"].map(|part| defined(header, &format!("KOZA_VERSION_{part}")));
    let whole = "(KOZA_VERSION_MAJOR * 10000 + KOZA_VERSION_MINOR * 100 + KOZA_VERSION_PATCH)";
    c.same("KOZA_VERSION", between(header, "#define KOZA_VERSION ", "\n"), whole);
    c.same("the archive's version", kozamyure::version(), major * 10_000 + minor * 100 + patch);
    let version = format!("{major}.{minor}.{patch}");
    c.same("the version of bindings/rust/Cargo.toml", between(manifest, "\nversion = \"", "\"\n"), &version);
    c.same("SHEET_MAX", SHEET_MAX as u32, defined(header, "KOZA_SHEET_MAX"));
}

// ---- calls

/// A sheet of one axis.
fn sheet(op: &str, input: &str, kernel: &str, stride: u32) -> String {
    format!(
        "op={op}\naxes=1\ninput={input}\nkernel={kernel}\nstrides={stride}\ndilations=1\nauto_pad=explicit\npads_begin=0\npads_end=0\noutput_padding=0\n\
         rounding=floor\naxis=0\n"
    )
}

/// Document 01's sheet.
const POOL: &str = "op=maxpool\naxes=2\ninput=1,2,3,3\nkernel=2,2\nstrides=1,1\ndilations=1,1\nauto_pad=explicit\npads_begin=0,0\npads_end=0,0\n\
                    output_padding=0,0\nrounding=floor\naxis=2\n";

/// 1 to 18, the input of POOL.
fn rising() -> Vec<f32> {
    (1u8..=18).map(f32::from).collect()
}

/// Accepted calls: two bench cases of document 01, and its sheet.
fn check_accepted(c: &mut Compared) {
    let (conv, trans) = (sheet("convolution", "1,1,2", "1,1,1,2", 1), sheet("transposed", "1,1,2", "1,1,1,3", 2));
    let mut sum = [7.0];
    c.same("convolution", convolution(conv.as_bytes(), &[4096.0, 1.0], &[4096.0, 1.0], &mut sum), Ok(()));
    c.same("the sum of a convolution", sum, [16_777_216.0]);
    c.same("convolution_halved", convolution_halved(conv.as_bytes(), &[4096.0, 1.0], &[4096.0, 1.0], &mut sum), Ok(()));
    c.same("the sum of a convolution with halved sums", sum, [16_777_216.0]);
    let mut sums = [7.0; 5];
    c.same("transposed", transposed(trans.as_bytes(), &[1.0, 2.0], &[1.0; 3], &mut sums), Ok(()));
    c.same("the sums of a transposed convolution", sums, [1.0, 1.0, 3.0, 2.0, 2.0]);
    let (mut values, mut indices) = ([7.0; 8], [7; 8]);
    c.same("maxpool", maxpool(POOL.as_bytes(), &rising(), &mut values, &mut indices), Ok(()));
    c.same("the values of a pooling", values, [5.0, 6.0, 8.0, 9.0, 14.0, 15.0, 17.0, 18.0]);
    c.same("the indices of a pooling", indices, [4, 5, 7, 8, 4, 5, 7, 8]);

    let pooled = Shape { axes: 2, n: 3, c: 5, z: 1, y: 7, x: 6 };
    c.same("shape", shape(POOL.replacen("1,2,3,3", "3,5,8,7", 1).as_bytes()), Ok(pooled));
    c.same("the sizes of a shape", pooled.sizes(), [3, 5, 1, 7, 6]);
    c.same("lengths of a pooling", lengths(POOL.as_bytes()), Ok(Lengths { input: 18, kernel: 0, output: 8 }));
    c.same("lengths of a transposed convolution", lengths(trans.as_bytes()), Ok(Lengths { input: 2, kernel: 3, output: 5 }));
    let mut buffer = [7; SHEET_MAX];
    c.same("rewrite", rewrite(POOL.as_bytes(), &mut buffer), Ok(POOL.len()));
    let (written, rest) = buffer.split_at(POOL.len());
    c.same("the sheet that was written", written, POOL.as_bytes());
    c.same("the bytes after the sheet", rest, &[7; SHEET_MAX][POOL.len()..]);
    c.same("plane", plane(&values, [1, 2, 1, 2, 2], 0, 1, 0), &[14.0, 15.0, 17.0, 18.0]);
    c.same("peak", peak(&[3.0, 1.0, 4.0, 1.0, 5.0, 5.0], 2), Ok(Peak { value: 5.0, row: 2, column: 0 }));
    c.same("float_mode_ok", kozamyure::float_mode_ok(), true);
}

/// Four taps with the products 2^24, 1, 1 and 1: a running sum stays at 2^24, the last two together move it. A tap outside takes part as +0.
fn check_profiles(c: &mut Compared) {
    let conv = sheet("convolution", "1,1,4", "1,1,1,4", 1).replacen("end=0", "end=1", 1);
    let (input, kernel, mut running, mut halved) = ([4096.0, 1.0, 1.0, 1.0], [4096.0, 1.0, 1.0, 1.0], [7.0; 2], [7.0; 2]);
    c.same("convolution", convolution(conv.as_bytes(), &input, &kernel, &mut running), Ok(()));
    c.same("convolution_halved", convolution_halved(conv.as_bytes(), &input, &kernel, &mut halved), Ok(()));
    c.same("the sums of both profiles", (running, halved), ([16_777_216.0, 4098.0], [16_777_218.0, 4098.0]));
}

/// Accepted calls with three axes: POOL with a depth before its rows, and a plane at each depth.
fn check_three_axes(c: &mut Compared) {
    let pool = POOL.replace("=1,1\n", "=1,1,1\n").replace("=0,0\n", "=0,0,0\n");
    let pool = pool.replacen("axes=2", "axes=3", 1).replacen("1,2,3,3", "1,1,2,3,3", 1).replacen("kernel=2,2", "kernel=1,2,2", 1);
    let (mut values, mut indices) = ([7.0; 8], [7; 8]);
    c.same("maxpool", maxpool(pool.as_bytes(), &rising(), &mut values, &mut indices), Ok(()));
    c.same("the values of a pooling", values, [5.0, 6.0, 8.0, 9.0, 14.0, 15.0, 17.0, 18.0]);
    c.same("the indices of a pooling", indices, [4, 5, 7, 8, 13, 14, 16, 17]);
    let pooled = Shape { axes: 3, n: 1, c: 1, z: 2, y: 2, x: 2 };
    c.same("shape", shape(pool.as_bytes()), Ok(pooled));
    c.same("lengths of a pooling", lengths(pool.as_bytes()), Ok(Lengths { input: 18, kernel: 0, output: 8 }));
    c.same("plane", plane(&values, pooled.sizes(), 0, 0, 0), &[5.0, 6.0, 8.0, 9.0]);
    c.same("plane", plane(&values, pooled.sizes(), 0, 0, 1), &[14.0, 15.0, 17.0, 18.0]);
    let mut buffer = [7; SHEET_MAX];
    c.same("rewrite", rewrite(pool.as_bytes(), &mut buffer), Ok(pool.len()));
    c.same("the sheet that was written", &buffer[..pool.len()], pool.as_bytes());
    let deep = Shape { axes: 3, n: 2, c: 3, z: 4, y: 5, x: 6 };
    c.same("shape", shape(pool.replacen("1,1,2,3,3", "2,3,4,6,7", 1).as_bytes()), Ok(deep));
    c.same("the sizes of a shape", deep.sizes(), [2, 3, 4, 5, 6]);
}

// Texts that come back more than once.
const LENGTH: &str = "number 8: a buffer's length is not exactly its element count (elements, not bytes: koza_lengths tells them)";
const OPERATOR: &str = "number 2: an attribute outside its limit, a sheet of another operator, a same mode with transposed, axis outside its range, or an \
                        unused field not at its default";
const KEY: &str = "number 20: the sheet: a wrong key or no line end, or bytes left over (line 13, or 14 with a version line)";
const NUMBER: &str = "number 21: the sheet: a number, or a count of numbers, that breaks the rules, or a version line other than version=14";
const WORD: &str = "number 22: the sheet: an unknown word, as is ceil_torch without a version line";
const UNUSED: &str = "number 23: the sheet: a line that its operator does not use is not at its default, or a version line before another operator than \
                      maxpool";
const EMPTY: &str = "number 7: pooling: some window holds no element";
const SHORT: &str = "number 24: the buffer is shorter than the sheet";

/// A text and a line after it.
fn at_line(text: &str, line: u32) -> String {
    format!("{text}; at line {line}")
}

/// MaxPool-14: document 01's pooling of three elements, kernel 2, stride 2, pads 1. Its windows start at -1, 1 and 3; ceil_torch leaves out the third, which
/// holds no element, ceil has it and is refused.
fn check_version_14(c: &mut Compared) {
    let eight = sheet("maxpool", "1,1,3", "2", 2).replacen("begin=0", "begin=1", 1).replacen("end=0", "end=1", 1).replacen("floor", "ceil_torch", 1);
    let pool = format!("version=14\n{eight}");
    let (mut values, mut indices, mut buffer) = ([7.0; 2], [7; 2], [7; SHEET_MAX]);
    c.same("shape", shape(pool.as_bytes()), Ok(Shape { axes: 1, n: 1, c: 1, z: 1, y: 1, x: 2 }));
    c.same("lengths of a pooling", lengths(pool.as_bytes()), Ok(Lengths { input: 3, kernel: 0, output: 2 }));
    c.same("maxpool", maxpool(pool.as_bytes(), &[5.0, 1.0, 4.0], &mut values, &mut indices), Ok(()));
    c.same("the values and indices of a pooling", (values, indices), ([5.0, 4.0], [0, 2]));
    c.same("rewrite", rewrite(pool.as_bytes(), &mut buffer), Ok(pool.len()));
    c.same("the sheet that was written", &buffer[..pool.len()], pool.as_bytes());
    c.refused(rewrite(pool.as_bytes(), &mut buffer[..pool.len() - 1]), SHORT);

    let edited = |from: &str, to: &str| shape(pool.replacen(from, to, 1).as_bytes());
    c.refused(edited("ceil_torch", "ceil"), EMPTY);
    c.refused(edited("version=14", "version=15"), &at_line(NUMBER, 1));
    c.refused(edited("version=14", "version:14"), &at_line(KEY, 1));
    c.refused(edited("maxpool", "convolution"), &at_line(UNUSED, 2));
    c.refused(edited("ceil_torch", "torch"), &at_line(WORD, 12));
    c.refused(edited("axis=0\n", "axis=0\n\n"), &at_line(KEY, 14));
    c.refused(shape(eight.as_bytes()), &at_line(WORD, 11));
}

/// Operators that are refused.
fn check_refused_operators(c: &mut Compared) {
    let (conv, trans) = (sheet("convolution", "1,1,2", "1,1,1,2", 1), sheet("transposed", "1,1,2", "1,1,1,3", 2));
    let (conv, trans, pool) = (conv.as_bytes(), trans.as_bytes(), POOL.as_bytes());
    let (pair, bad, mut bad_input) = ([1.0; 2], [1.0, f32::NAN], rising());
    (bad_input[5], bad_input[17]) = (f32::NAN, f32::INFINITY);
    let (mut sum, mut sums, mut values, mut indices) = ([7.0], [7.0; 5], [7.0; 8], [7; 8]);

    for convolution in [convolution, convolution_halved] {
        c.refused(convolution(conv, &pair, &pair, &mut sums), LENGTH);
        c.refused(convolution(conv, &pair, &[], &mut sum), LENGTH);
        c.refused(convolution(conv, &pair, &bad, &mut sum), "number 9: an element above 2^40 in magnitude or NaN; the kernel has 1 bad element, at 1");
        c.refused(convolution(conv, &bad, &[2e12; 2], &mut sum), "number 9: an element above 2^40 in magnitude or NaN; the input has 1 bad element, at 1");
        c.refused(convolution(trans, &pair, &pair, &mut sum), OPERATOR);
        c.refused(convolution(&[], &[], &[], &mut []), &at_line(KEY, 1));
        let fields = Error { number: 9, line: 0, tensor: Some(Tensor::Kernel), place: 1, bad: 1 };
        c.same("the fields of a refusal", convolution(conv, &pair, &bad, &mut sum), Err(fields));
        let fields = Error { number: 8, line: 0, tensor: None, place: 0, bad: 0 };
        c.same("the fields of a refusal", convolution(conv, &bad, &bad, &mut sums), Err(fields));
    }
    c.refused(transposed(trans, &[], &[1.0; 3], &mut sums), LENGTH);
    let three = [-2e12; 3];
    c.refused(transposed(trans, &pair, &three, &mut sums), "number 9: an element above 2^40 in magnitude or NaN; the kernel has 3 bad elements, the first at 0");
    c.refused(transposed(conv, &pair, &pair, &mut sum), OPERATOR);
    c.refused(transposed(&[], &[], &[], &mut []), &at_line(KEY, 1));
    c.refused(maxpool(pool, &rising(), &mut values, &mut []), LENGTH);
    let two = "number 9: an element above 2^40 in magnitude or NaN; the input has 2 bad elements, the first at 5";
    c.refused(maxpool(pool, &bad_input, &mut values, &mut indices), two);
    c.refused(maxpool(trans, &pair, &mut values, &mut indices), OPERATOR);
    c.refused(maxpool(&[], &[], &mut [], &mut []), &at_line(KEY, 1));

    c.same("the buffers of refused operators", (sum, sums, values, indices), ([7.0], [7.0; 5], [7.0; 8], [7; 8]));
}

/// Sheets that are refused.
fn check_refused_sheets(c: &mut Compared) {
    let edited = |from: &str, to: &str| shape(POOL.replacen(from, to, 1).as_bytes());
    let convolution = |input: &str, kernel: &str| shape(sheet("convolution", input, kernel, 1).as_bytes());
    c.refused(edited("input=1", "input=17"), "number 1: axes is not 1, 2 or 3, or a dimension that the operator uses is outside its limit");
    c.refused(edited("axis=2", "axis=4"), OPERATOR);
    c.refused(convolution("1,3,2", "1,1,1,2"), "number 3: C is not G*I");
    c.refused(convolution("1,65,64", "1,1,65,64"), "number 4: more than 4,096 taps, or more than 16,777,216 elements in input or kernel");
    c.refused(edited("kernel=2,2", "kernel=2,4"), "number 5: the kernel does not fit on some axis, or a transposed output size is below 1");
    c.refused(convolution("16,1,4096", "1,1024,1,1"), "number 6: more than 16,777,216 output elements");
    c.refused(edited("pads_begin=0,0", "pads_begin=2,0"), EMPTY);
    c.refused(edited("axis=2\n", "axis=2\n\n"), &at_line(KEY, 13));
    c.refused(edited("axes=2", "axes=4"), &at_line(NUMBER, 2));
    c.refused(edited("axes=2", "axes=3"), &at_line(NUMBER, 3));
    c.refused(edited("floor", "round"), &at_line(WORD, 11));
    c.refused(edited("g=0,0", "g=0,1"), &at_line(UNUSED, 10));
    c.refused(lengths(b"op=pool\n"), &at_line(WORD, 1));
    c.refused(lengths(&[]), &at_line(KEY, 1));
    c.same("the fields of a refusal", lengths(b"op=pool\n"), Err(Error { number: 22, line: 1, tensor: None, place: 0, bad: 0 }));

    let mut buffer = [7; SHEET_MAX];
    c.refused(rewrite(POOL.as_bytes(), &mut buffer[..POOL.len() - 1]), SHORT);
    c.refused(rewrite(POOL.as_bytes(), &mut []), SHORT);
    c.refused(rewrite(&[], &mut buffer), &at_line(KEY, 1));
    c.same("the buffer of a refused sheet", buffer, [7; SHEET_MAX]);
}

/// Planes and peaks that are refused.
fn check_refused_planes(c: &mut Compared) {
    let tensor = [1.0, 2.0, f32::NAN, 4.0];
    let nothing: &[f32] = &[];
    c.same("a plane of an image that is not there", plane(&tensor, [1, 2, 1, 1, 2], 1, 0, 0), nothing);
    c.same("a plane of a channel that is not there", plane(&tensor, [1, 2, 1, 1, 2], 0, 2, 0), nothing);
    c.same("a plane of a depth that is not there", plane(&tensor, [1, 1, 2, 1, 2], 0, 0, 2), nothing);
    c.same("a plane of a tensor of another length", plane(&tensor, [1, 2, 1, 1, 3], 0, 0, 0), nothing);
    c.same("a plane of an empty tensor", plane(&[], [u32::MAX; 5], u32::MAX, u32::MAX, u32::MAX), nothing);
    c.refused(peak(&tensor, 0), LENGTH);
    c.refused(peak(&tensor, 3), LENGTH);
    c.refused(peak(&[], usize::MAX), LENGTH);
    c.refused(peak(&tensor, 2), "number 9: an element above 2^40 in magnitude or NaN; the plane has 1 bad element, at 2");
    c.refused(peak(&[f32::NAN; 6], 3), "number 9: an element above 2^40 in magnitude or NaN; the plane has 6 bad elements, the first at 0");
}

fn main() {
    let repository = std::env::args().nth(1).unwrap_or_else(|| format!("{}/../..", env!("CARGO_MANIFEST_DIR")));
    let read = |name: &str| std::fs::read_to_string(format!("{repository}/{name}")).unwrap_or_else(|e| fail(&format!("cannot read {name}: {e}")));
    let (header, manifest) = (read("include/kozamyure.h"), read("bindings/rust/Cargo.toml"));
    let mut c = Compared::default();
    check_versions(&mut c, &header, &manifest);
    check_texts(&mut c, &header);
    check_accepted(&mut c);
    check_profiles(&mut c);
    check_three_axes(&mut c);
    check_version_14(&mut c);
    check_refused_operators(&mut c);
    check_refused_sheets(&mut c);
    check_refused_planes(&mut c);
    println!("{} comparisons of the bindings, in version, texts and calls, accepted and refused: all agree", c.count);
}
