//! Turns binary PGM files (P5, 8 bits) into PNG files of the same names, 8-bit greyscale. The same pixels give the same bytes, so that stored pictures
//! can be compared.
//! usage: pictures PGM.. FOLDER
use std::path::{Path, PathBuf};

struct Picture {
    width: usize,
    height: usize,
    pixels: Vec<u8>,
}

// ---- PGM

/// The next word of a PGM header: white space and comments before it and one byte of white space after it are taken too.
fn word<'a>(rest: &mut &'a [u8]) -> Option<&'a str> {
    while rest.first().is_some_and(|b| b.is_ascii_whitespace() || *b == b'#') {
        let comment = rest[0] == b'#';
        let skipped = if comment { rest.iter().position(|b| *b == b'\n')? } else { 1 };
        *rest = &rest[skipped..];
    }
    let end = rest.iter().position(u8::is_ascii_whitespace)?;
    let word = &rest[..end];
    *rest = &rest[end + 1..];
    std::str::from_utf8(word).ok()
}

fn read_pgm(file: &[u8]) -> Result<Picture, String> {
    let mut rest = file;
    if word(&mut rest) != Some("P5") {
        return Err("not a binary PGM file: it does not begin with P5".to_string());
    }
    let mut number = |what: &str| {
        let value = word(&mut rest).and_then(|w| w.parse::<u32>().ok()).filter(|v| *v > 0);
        value.map(|v| v as usize).ok_or(format!("the header has no {what}"))
    };
    let (width, height, largest) = (number("width")?, number("height")?, number("largest grey level")?);
    if largest != 255 {
        return Err(format!("the largest grey level is {largest}, not 255"));
    }
    if Some(rest.len()) != width.checked_mul(height) {
        return Err(format!("{width} by {height} pixels are told, {} are there", rest.len()));
    }
    Ok(Picture { width, height, pixels: rest.to_vec() })
}

// ---- zlib: one block of fixed Huffman codes

/// Bits go into bytes from the lowest up.
#[derive(Default)]
struct Bits {
    bytes: Vec<u8>,
    count: u32,
}

impl Bits {
    /// A number of so many bits, lowest first.
    fn number(&mut self, value: u32, bits: u32) {
        for i in 0..bits {
            let place = self.count % 8;
            if place == 0 {
                self.bytes.push(0);
            }
            let last = self.bytes.len() - 1;
            self.bytes[last] |= ((value >> i & 1) as u8) << place;
            self.count += 1;
        }
    }

    /// A Huffman code goes highest bit first.
    fn code(&mut self, value: u32, bits: u32) {
        self.number(value.reverse_bits() >> (32 - bits), bits);
    }

    /// A literal byte (0 to 255), the end of the block (256) or a length's symbol (257 to 285).
    fn symbol(&mut self, symbol: u32) {
        match symbol {
            0..=143 => self.code(0x30 + symbol, 8),
            144..=255 => self.code(0x190 + symbol - 144, 9),
            256..=279 => self.code(symbol - 256, 7),
            _ => self.code(0xC0 + symbol - 280, 8),
        }
    }

    /// `length` bytes (3 to 258) again, from `distance` bytes (1 to 32,768) before.
    fn copy(&mut self, length: u32, distance: u32) {
        if length == 258 {
            self.symbol(285);
        } else {
            let (group, rest, bits) = split(length - 3, 2);
            self.symbol(257 + group);
            self.number(rest, bits);
        }
        let (group, rest, bits) = split(distance - 1, 1);
        self.code(group, 5);
        self.number(rest, bits);
    }
}

/// Lengths and distances fall into groups: 2^(low + 1) of one value each, then 2^low of 2 values each, 2^low of 4, and so on. The group of a value, its
/// place in the group, and how many bits that place has.
fn split(value: u32, low: u32) -> (u32, u32, u32) {
    let bits = (32 - value.leading_zeros()).saturating_sub(low + 1);
    ((bits << low) + (value >> bits), value & ((1 << bits) - 1), bits)
}

/// How many bytes from `at` on are those of `distance` before, at most 258.
fn repeated(data: &[u8], at: usize, distance: usize) -> usize {
    if distance > at {
        return 0;
    }
    data[at..].iter().zip(&data[at - distance..]).take(258).take_while(|(a, b)| a == b).count()
}

/// Each byte by itself, or the longer of two repetitions: of the byte before, or of the row above.
fn zlib(data: &[u8], row: usize) -> Vec<u8> {
    let mut bits = Bits { bytes: vec![0x78, 0x01], count: 0 };
    bits.number(1, 1); // the last block
    bits.number(1, 2); // fixed Huffman codes
    let mut at = 0;
    while at < data.len() {
        let above = if row <= 32768 { repeated(data, at, row) } else { 0 };
        let before = repeated(data, at, 1);
        if above.max(before) < 3 {
            bits.symbol(u32::from(data[at]));
            at += 1;
        } else if above > before {
            bits.copy(above as u32, row as u32);
            at += above;
        } else {
            bits.copy(before as u32, 1);
            at += before;
        }
    }
    bits.symbol(256);
    let mut stream = bits.bytes;
    stream.extend(adler32(data).to_be_bytes());
    stream
}

fn adler32(data: &[u8]) -> u32 {
    let (a, b) = data.iter().fold((1, 0), |(a, b), v| ((a + u32::from(*v)) % 65521, (b + a + u32::from(*v)) % 65521));
    b << 16 | a
}

// ---- PNG

fn crc32(data: &[u8]) -> u32 {
    let step = |c: u32, _| if c & 1 == 1 { 0xEDB8_8320 ^ c >> 1 } else { c >> 1 };
    !data.iter().fold(!0, |c, v| (0..8).fold(c ^ u32::from(*v), step))
}

fn chunk(file: &mut Vec<u8>, kind: &[u8; 4], data: &[u8]) {
    let checked = [kind, data].concat();
    file.extend((data.len() as u32).to_be_bytes());
    file.extend(&checked);
    file.extend(crc32(&checked).to_be_bytes());
}

fn png(p: &Picture) -> Vec<u8> {
    let mut header = [p.width as u32, p.height as u32].map(u32::to_be_bytes).concat();
    header.extend([8, 0, 0, 0, 0]); // 8 bits, greyscale, deflate, rows with filters, not interlaced
    // Each row begins with its filter: 0, none.
    let rows: Vec<u8> = p.pixels.chunks(p.width).flat_map(|row| [&[0], row].concat()).collect();
    let mut file = b"\x89PNG\r\n\x1a\n".to_vec();
    chunk(&mut file, b"IHDR", &header);
    chunk(&mut file, b"IDAT", &zlib(&rows, p.width + 1));
    chunk(&mut file, b"IEND", &[]);
    file
}

// ---- files

fn convert(from: &Path, folder: &Path) -> Result<(), String> {
    let file = std::fs::read(from).map_err(|e| format!("cannot read {}: {e}", from.display()))?;
    let picture = read_pgm(&file).map_err(|e| format!("{}: {e}", from.display()))?;
    let name = from.file_stem().ok_or(format!("{} is no file's name", from.display()))?;
    let to = folder.join(name).with_extension("png");
    std::fs::write(&to, png(&picture)).map_err(|e| format!("cannot write {}: {e}", to.display()))
}

fn main() {
    let paths: Vec<PathBuf> = std::env::args_os().skip(1).map(PathBuf::from).collect();
    let Some((folder, files @ [_, ..])) = paths.split_last() else {
        eprintln!("usage: pictures PGM.. FOLDER");
        std::process::exit(2)
    };
    for file in files {
        if let Err(e) = convert(file, folder) {
            eprintln!("pictures: {e}");
            std::process::exit(2);
        }
    }
}
