//! Holds document 01 (docs/01-scope.md) and the comments of crates/*/specs/**/*.antt against each other: every word of every sentence of document 01 stands in
//! a quotation beside a definition, or in docs/UNTRACED.md with the reason why no definition says it, and document 01 has every quotation, to the letter.
//! docs/TRACE.md lists the outcome, sentence by sentence.
//! usage: trace [--write] [ROOT]      (ROOT is the repository's folder, by default the current one; --write writes docs/TRACE.md, else it is compared)
//!
//! It uses std alone and no other file of this package, so that plain rustc builds it before the static library exists.
use std::collections::BTreeSet;
use std::fs;
use std::ops::Range;
use std::path::{Path, PathBuf};
use std::process::ExitCode;

const DOCUMENT: &str = "docs/01-scope.md";
const UNTRACED: &str = "docs/UNTRACED.md";
const TRACE: &str = "docs/TRACE.md";

/// Between two pieces of a quotation: words of document 01 are left out here.
const CUT: &str = " .. ";

/// What can stand round a word and is no part of it. An apostrophe is part of one (k').
const PUNCTUATION: [char; 11] = ['.', ',', ';', ':', '(', ')', '[', ']', '"', '`', '|'];

// ---- text

/// Text put together from lines, with one space for any white space, that knows the line of each of its places.
#[derive(Default)]
struct Folded {
    text: String,
    starts: Vec<(usize, usize)>,
}

impl Folded {
    fn push(&mut self, line: usize, part: &str) {
        for word in part.split_whitespace() {
            if !self.text.is_empty() {
                self.text.push(' ');
            }
            self.starts.push((self.text.len(), line));
            self.text.push_str(word);
        }
    }

    fn line(&self, place: usize) -> usize {
        self.starts.iter().rev().find(|(start, _)| *start <= place).map_or(0, |(_, line)| *line)
    }
}

/// Whether a word in parentheses is a mark like `(C-24)`: by the request of that number the sentence before it says what it says now.
fn is_mark(part: &str, word: &str) -> bool {
    let digits = word.strip_prefix("C-").unwrap_or_default();
    part.starts_with('(') && digits.len() == 2 && digits.chars().all(|c| c.is_ascii_digit())
}

/// The words of a folded text: what white space parts, without the punctuation round it. Punctuation alone is no word, nor is the mark of a request.
fn words(text: &str) -> Vec<Range<usize>> {
    let mut found = Vec::new();
    let mut start = 0;
    for part in text.split(' ') {
        let word = part.trim_matches(PUNCTUATION);
        if !word.is_empty() && !is_mark(part, word) {
            let from = start + (part.len() - part.trim_start_matches(PUNCTUATION).len());
            found.push(from..from + word.len());
        }
        start += part.len() + 1;
    }
    found
}

/// A sentence ends at a full stop that follows a word and that white space follows, or where its block ends: `1..16`, ` .. `, a colon and a semicolon end none.
fn sentences(text: &str) -> Vec<Range<usize>> {
    let mut found = Vec::new();
    let mut start = 0;
    for (place, _) in text.match_indices(". ") {
        if !text[..place].ends_with([' ', '.']) {
            found.push(start..place + 1);
            start = place + 2;
        }
    }
    if start < text.len() {
        found.push(start..text.len());
    }
    found
}

fn numbered(text: &str) -> impl Iterator<Item = (usize, &str)> {
    text.lines().enumerate().map(|(k, line)| (k + 1, line.trim()))
}

// ---- document 01

/// A paragraph, a list item, a text cell of a table or a code block of document 01: under which heading, and in a table its row's number.
struct Block {
    heading: usize,
    number: Option<String>,
    code: bool,
    folded: Folded,
    words: Vec<Range<usize>>,
}

struct Heading {
    level: usize,
    text: String,
}

struct Document {
    headings: Vec<Heading>,
    blocks: Vec<Block>,
}

impl Document {
    /// Takes the block that has been put together so far, if there is one, and starts an empty one.
    fn close(&mut self, open: &mut Folded, code: bool, number: Option<String>) {
        let folded = std::mem::take(open);
        if !folded.text.is_empty() {
            let words = words(&folded.text);
            self.blocks.push(Block { heading: self.headings.len() - 1, number, code, folded, words });
        }
    }

    /// A table row: a cell of digits is the row's number and `No.` the head of such a column; neither is a sentence. Every other cell is a block.
    fn row(&mut self, line: usize, row: &str) {
        let cells: Vec<&str> = row.trim_matches('|').split('|').map(str::trim).filter(|cell| !cell.is_empty()).collect();
        let digits = |cell: &str| cell.chars().all(|c| c.is_ascii_digit());
        let rule = |cell: &str| cell.chars().all(|c| "-:".contains(c));
        let number = cells.iter().find(|cell| digits(cell)).map(|cell| cell.to_string());
        for cell in cells.into_iter().filter(|cell| !digits(cell) && !rule(cell) && *cell != "No.") {
            let mut open = Folded::default();
            open.push(line, cell);
            self.close(&mut open, false, number.clone());
        }
    }

    fn read(text: &str) -> Document {
        let mut document = Document { headings: vec![Heading { level: 1, text: DOCUMENT.to_string() }], blocks: Vec::new() };
        let mut open = Folded::default();
        let mut code = false;
        for (number, line) in numbered(text) {
            if line.starts_with("```") {
                document.close(&mut open, code, None);
                code = !code;
            } else if code {
                open.push(number, line);
            } else if line.is_empty() || line.starts_with(['#', '|']) || line.starts_with("- ") {
                document.close(&mut open, false, None);
                document.line(&mut open, number, line);
            } else {
                open.push(number, line);
            }
        }
        document.close(&mut open, code, None);
        document
    }

    /// A line that ends the block before it.
    fn line(&mut self, open: &mut Folded, number: usize, line: &str) {
        if line.starts_with('#') {
            let text = line.trim_start_matches('#');
            self.headings.push(Heading { level: line.len() - text.len(), text: text.trim().to_string() });
        } else if line.starts_with('|') {
            self.row(number, line);
        } else {
            open.push(number, line.trim_start_matches("- "));
        }
    }

    /// Where document 01 has a quotation: the first block in which its pieces stand in their order, or a heading that is the same.
    fn find(&self, quotation: &str) -> Option<Found> {
        let pieces: Vec<&str> = quotation.split(CUT).collect();
        let in_blocks = self.blocks.iter().enumerate().find_map(|(block, b)| Some(Found { block, spans: b.spans(&pieces)? }));
        let heading = || self.headings.iter().any(|h| h.text == quotation).then_some(Found { block: 0, spans: Vec::new() });
        in_blocks.or_else(heading)
    }
}

impl Block {
    /// The pieces, each behind the one before it and made of whole words.
    fn spans(&self, pieces: &[&str]) -> Option<Vec<Range<usize>>> {
        let mut from = 0;
        let mut found = Vec::new();
        for piece in pieces {
            let span = self.piece(piece, from)?;
            from = span.end;
            found.push(span);
        }
        Some(found)
    }

    fn piece(&self, piece: &str, from: usize) -> Option<Range<usize>> {
        let text = &self.folded.text;
        let splits = |place: usize| self.words.iter().any(|w| w.start < place && place < w.end);
        let starts = (from..text.len()).filter(|start| text.is_char_boundary(*start) && text[*start..].starts_with(piece));
        starts.map(|start| start..start + piece.len()).find(|span| !piece.is_empty() && !splits(span.start) && !splits(span.end))
    }

    fn sentences(&self) -> Vec<Range<usize>> {
        if self.code {
            std::iter::once(0..self.folded.text.len()).collect()
        } else {
            sentences(&self.folded.text)
        }
    }
}

/// A place in document 01. A heading has no spans: it has no sentence to be quoted.
struct Found {
    block: usize,
    spans: Vec<Range<usize>>,
}

impl Found {
    fn covers(&self, block: usize, word: &Range<usize>) -> bool {
        self.block == block && self.spans.iter().any(|span| span.start <= word.start && word.end <= span.end)
    }
}

// ---- quotations

/// A quotation of document 01: in a comment in specs, with the place of the comment among all and the number of document 01's table that the comment names
/// before it, or an entry of docs/UNTRACED.md, with its reason.
#[derive(Default)]
struct Quotation {
    path: String,
    line: usize,
    comment: usize,
    number: Option<String>,
    text: String,
    reason: String,
}

impl Quotation {
    /// As a link from docs/TRACE.md: `sizes/Size.antt:31`.
    fn link(&self) -> String {
        let name = self.path.trim_start_matches("crates/").replacen("/specs/", "/", 1);
        format!("[{name}:{line}](../{path}#L{line})", path = self.path, line = self.line)
    }
}

fn read(root: &Path, path: &str) -> Result<String, String> {
    fs::read_to_string(root.join(path)).map_err(|e| format!("{path}:1: {e}"))
}

/// The files of definitions, by their paths from the root, sorted.
fn definition_files(root: &Path) -> Result<Vec<String>, String> {
    let list = |folder: &PathBuf| -> Result<Vec<PathBuf>, String> {
        let entries = fs::read_dir(folder).and_then(|entries| entries.map(|e| e.map(|e| e.path())).collect::<Result<Vec<_>, _>>());
        entries.map_err(|e| format!("{}:1: {e}", folder.display()))
    };
    let mut folders: Vec<PathBuf> = list(&root.join("crates"))?.into_iter().map(|c| c.join("specs")).filter(|s| s.is_dir()).collect();
    let mut files = Vec::new();
    while let Some(folder) = folders.pop() {
        for path in list(&folder)? {
            if path.is_dir() {
                folders.push(path);
            } else if path.extension().is_some_and(|e| e == "antt") {
                files.push(path.strip_prefix(root).unwrap_or(&path).to_string_lossy().into_owned());
            }
        }
    }
    files.sort();
    Ok(files)
}

/// The comments of a file: lines that begin with `--`, and those that follow on such a line.
fn comments(text: &str) -> Vec<Folded> {
    let mut found: Vec<Folded> = Vec::new();
    let mut last = 0;
    for (number, line) in numbered(text) {
        if let Some(comment) = line.strip_prefix("--") {
            if found.is_empty() || last + 1 != number {
                found.push(Folded::default());
            }
            found.last_mut().expect("one was pushed").push(number, comment);
            last = number;
        }
    }
    found
}

/// The number in `number 5: "..` and `number 5 on one axis: "..`, from what stands before the quotation.
fn named_number(before: &str) -> Option<String> {
    let (_, rest) = before.rsplit_once("umber ")?;
    let digits: String = rest.chars().take_while(char::is_ascii_digit).collect();
    Some(digits).filter(|d| !d.is_empty())
}

/// What stands between two double quotes in a file's comments.
fn quotations(path: &str, text: &str, first: usize, errors: &mut Vec<String>) -> Vec<Quotation> {
    let mut found = Vec::new();
    for (k, comment) in comments(text).iter().enumerate() {
        let marks: Vec<usize> = comment.text.match_indices('"').map(|(place, _)| place).collect();
        if marks.len() % 2 == 1 {
            errors.push(format!("{path}:{}: an odd number of double quotes in this comment", comment.line(0)));
            continue;
        }
        let mut end = 0;
        for pair in marks.chunks(2) {
            let text = comment.text[pair[0] + 1..pair[1]].trim().to_string();
            let number = named_number(&comment.text[end..pair[0]]);
            found.push(Quotation { path: path.to_string(), line: comment.line(pair[0]), comment: first + k, number, text, ..Quotation::default() });
            end = pair[1];
        }
    }
    found
}

fn all_quotations(root: &Path, errors: &mut Vec<String>) -> Result<Vec<Quotation>, String> {
    let mut found = Vec::new();
    let mut first = 0;
    for path in definition_files(root)? {
        let text = read(root, &path)?;
        found.extend(quotations(&path, &text, first, errors));
        first += text.lines().count();
    }
    Ok(found)
}

/// The entries of docs/UNTRACED.md: lines `> quotation`, in groups; the text between a group and the next group or heading is its reason.
fn entries(text: &str, errors: &mut Vec<String>) -> Vec<Quotation> {
    let mut done = Vec::new();
    let mut group: Vec<Quotation> = Vec::new();
    let mut reason = Folded::default();
    let mut in_group = false;
    for (number, line) in numbered(text) {
        let quotation = line.strip_prefix('>');
        if line.starts_with('#') || quotation.is_some() && !in_group {
            close_group(&mut done, &mut group, &mut reason, errors);
        }
        in_group = quotation.is_some();
        if let Some(quotation) = quotation {
            let mut folded = Folded::default();
            folded.push(number, quotation);
            if !folded.text.is_empty() {
                group.push(Quotation { path: UNTRACED.to_string(), line: number, text: folded.text, ..Quotation::default() });
            }
        } else if !group.is_empty() {
            reason.push(number, line);
        }
    }
    close_group(&mut done, &mut group, &mut reason, errors);
    done
}

fn close_group(done: &mut Vec<Quotation>, group: &mut Vec<Quotation>, reason: &mut Folded, errors: &mut Vec<String>) {
    let reason = std::mem::take(reason).text;
    if let (Some(entry), true) = (group.first(), reason.is_empty()) {
        errors.push(format!("{UNTRACED}:{}: no reason follows this group", entry.line));
    }
    done.extend(group.drain(..).map(|entry| Quotation { reason: reason.clone(), ..entry }));
}

// ---- the trace

/// A quotation and its place in document 01.
struct Placed {
    quotation: Quotation,
    found: Found,
}

/// The longest beginning of a quotation that document 01 has, to show where the two part.
fn beginning<'a>(document: &Document, quotation: &'a str) -> &'a str {
    let mut ends = quotation.match_indices(' ').rev();
    ends.find(|(end, _)| document.find(&quotation[..*end]).is_some()).map_or("", |(end, _)| &quotation[..end])
}

/// A comment that names another number than that of the table row which it quotes.
fn other_number(document: &Document, quotation: &Quotation, found: &Found) -> Option<String> {
    let row = document.blocks[found.block].number.as_ref().filter(|_| !found.spans.is_empty())?;
    let named = quotation.number.as_ref().filter(|named| *named != row)?;
    Some(format!("{}:{}: the comment says number {named}, document 01 has \"{}\" at number {row}", quotation.path, quotation.line, quotation.text))
}

/// Finds each quotation in document 01; one that it does not have is an error.
fn place(document: &Document, quotations: Vec<Quotation>, errors: &mut Vec<String>) -> Vec<Placed> {
    let mut placed = Vec::new();
    for quotation in quotations {
        if let Some(found) = document.find(&quotation.text) {
            errors.extend(other_number(document, &quotation, &found));
            placed.push(Placed { quotation, found });
        } else {
            let Quotation { path, line, text, .. } = &quotation;
            let only = Some(beginning(document, text)).filter(|b| !b.is_empty()).map_or(String::new(), |b| format!(", only \"{b}\""));
            errors.push(format!("{path}:{line}: document 01 does not have \"{text}\"{only}"));
        }
    }
    placed
}

/// Whether one of these has a word.
fn covered(by: &[Placed], block: usize, word: &Range<usize>) -> bool {
    by.iter().any(|p| p.found.covers(block, word))
}

/// An entry must have a word that neither a quotation in specs nor an earlier entry has.
fn superfluous(document: &Document, quoted: &[Placed], listed: &[Placed], errors: &mut Vec<String>) {
    for (k, entry) in listed.iter().enumerate() {
        let block = entry.found.block;
        let own = |word: &Range<usize>| entry.found.covers(block, word) && !covered(quoted, block, word) && !covered(&listed[..k], block, word);
        if !document.blocks[block].words.iter().any(own) {
            let Quotation { line, text, .. } = &entry.quotation;
            errors.push(format!("{UNTRACED}:{line}: superfluous, every word is quoted in specs or listed above: \"{text}\""));
        }
    }
}

/// A sentence of document 01: the quotations that have words of it, the entries that have further words, with these, and the words that nothing has.
struct Sentence<'a> {
    block: &'a Block,
    range: Range<usize>,
    quoted: Vec<&'a Quotation>,
    listed: Vec<(&'a Quotation, String)>,
    uncovered: String,
}

/// These of the words of a text with the punctuation at them, and a cut where words between them are left out.
fn excerpt(text: &str, words: &[Range<usize>], chosen: impl Fn(&Range<usize>) -> bool) -> String {
    let mut runs: Vec<Range<usize>> = Vec::new();
    let mut follows = false;
    for word in words {
        let start = text[..word.start].rfind(' ').map_or(0, |space| space + 1);
        let end = text[word.end..].find(' ').map_or(text.len(), |space| word.end + space);
        let chosen = chosen(word);
        match runs.last_mut() {
            Some(run) if chosen && follows => run.end = end,
            _ if chosen => runs.push(start..end),
            _ => (),
        }
        follows = chosen;
    }
    runs.into_iter().map(|run| &text[run]).collect::<Vec<_>>().join(CUT)
}

impl<'a> Sentence<'a> {
    fn new(number: usize, block: &'a Block, range: Range<usize>, quoted: &'a [Placed], listed: &'a [Placed]) -> Sentence<'a> {
        let words: Vec<Range<usize>> = block.words.iter().filter(|w| range.start <= w.start && w.end <= range.end).cloned().collect();
        let those = |chosen: &dyn Fn(&Range<usize>) -> bool| excerpt(&block.folded.text, &words, chosen);
        let uncovered = those(&|w| !covered(quoted, number, w) && !covered(listed, number, w));
        let further = |entry: &'a Placed| (&entry.quotation, those(&|w| entry.found.covers(number, w) && !covered(quoted, number, w)));
        let listed = listed.iter().map(further).filter(|(_, words)| !words.is_empty()).collect();
        let has_some = |p: &&Placed| words.iter().any(|w| p.found.covers(number, w));
        let quoted = quoted.iter().filter(has_some).map(|p| &p.quotation).collect();
        Sentence { block, range, quoted, listed, uncovered }
    }

    fn text(&self) -> &str {
        &self.block.folded.text[self.range.clone()]
    }

    fn error(&self) -> Option<String> {
        let line = self.block.folded.line(self.range.start);
        let which = if self.uncovered == self.text() { String::new() } else { format!("\"{}\" of ", self.uncovered) };
        let said = format!("{DOCUMENT}:{line}: neither specs nor {UNTRACED} has {which}the sentence \"{}\"", self.text());
        (!self.uncovered.is_empty()).then_some(said)
    }

    /// Its row in docs/TRACE.md, with the number of its row in document 01 if it stands in a table there.
    fn row(&self) -> String {
        let text = if self.block.code { format!("`{}`", self.text()) } else { self.text().to_string() };
        let number = self.block.number.as_ref().map_or(String::new(), |number| format!("({number}) "));
        let mut places: Vec<String> = self.quoted.iter().map(|q| q.link()).collect();
        places.dedup();
        for (entry, words) in &self.listed {
            let which = if self.quoted.is_empty() && self.listed.len() == 1 { String::new() } else { format!(" of \"{words}\"") };
            places.push(format!("no definition{which}: {}", entry.reason));
        }
        format!("| {} | {} |\n", (number + &text).replace('|', "\\|"), places.join(", ").replace('|', "\\|"))
    }
}

const HEAD: &str = "# Where each sentence of document 01 is said

Each sentence of [document 01](01-scope.md), in its order, with the definitions whose comments quote it: a file of `crates/*/specs` and the line where the
quotation starts. A quotation that document 01 has in several places stands for the first of them. Where no definition says a sentence, or some of its words,
the reason stands here from [UNTRACED.md](UNTRACED.md). `tests/rust/src/bin/trace.rs` makes this file (`trace --write`) and compares it in the gate; it is not
edited by hand.
";

fn report(document: &Document, sentences: &[Sentence]) -> String {
    let mut text = HEAD.to_string();
    let mut last = usize::MAX;
    for sentence in sentences {
        let heading = sentence.block.heading;
        if heading != last {
            let Heading { level, text: title } = &document.headings[heading];
            text += &format!("\n{} {title}\n\n| sentence | where it is said |\n|---|---|\n", "#".repeat((*level).max(2)));
            last = heading;
        }
        text += &sentence.row();
    }
    text
}

/// Writes docs/TRACE.md, but not from a tree with errors; or compares it.
fn keep(root: &Path, report: &str, write: bool, errors: &mut Vec<String>) {
    if write {
        if errors.is_empty() {
            errors.extend(fs::write(root.join(TRACE), report).err().map(|e| format!("{TRACE}:1: {e}")));
        }
        return;
    }
    let stored = fs::read_to_string(root.join(TRACE)).unwrap_or_default();
    if stored != report {
        let same = stored.lines().zip(report.lines()).take_while(|(a, b)| a == b).count();
        errors.push(format!("{TRACE}:{}: out of date from here on: run trace --write", same + 1));
    }
}

fn tally(sentences: &[Sentence], quoted: &[Placed]) -> String {
    let count = |test: &dyn Fn(&Sentence) -> bool| sentences.iter().filter(|s| test(s)).count();
    let whole = count(&|s| s.listed.is_empty() && s.uncovered.is_empty());
    let listed = count(&|s| !s.listed.is_empty());
    let part = count(&|s| !s.listed.is_empty() && !s.quoted.is_empty());
    let comments: BTreeSet<usize> = quoted.iter().filter(|p| !p.found.spans.is_empty()).map(|p| p.quotation.comment).collect();
    format!("{} sentences: {whole} quoted by {} definitions' comments, {listed} listed with a reason, {part} of these in part", sentences.len(), comments.len())
}

/// The tally; what is wrong goes to `errors`.
fn trace(root: &Path, write: bool, errors: &mut Vec<String>) -> Result<String, String> {
    let document = Document::read(&read(root, DOCUMENT)?);
    let quoted = place(&document, all_quotations(root, errors)?, errors);
    let listed = place(&document, entries(&read(root, UNTRACED)?, errors), errors);
    superfluous(&document, &quoted, &listed, errors);
    let mut sentences = Vec::new();
    for (number, block) in document.blocks.iter().enumerate() {
        sentences.extend(block.sentences().into_iter().map(|range| Sentence::new(number, block, range, &quoted, &listed)));
    }
    errors.extend(sentences.iter().filter_map(Sentence::error));
    keep(root, &report(&document, &sentences), write, errors);
    Ok(tally(&sentences, &quoted))
}

fn main() -> ExitCode {
    let (options, folders): (Vec<String>, Vec<String>) = std::env::args().skip(1).partition(|word| word.starts_with('-'));
    if options.iter().any(|o| o != "--write") || folders.len() > 1 {
        eprintln!("usage: trace [--write] [ROOT]");
        return ExitCode::from(2);
    }
    let root = folders.first().map_or(".", String::as_str);
    let mut errors = Vec::new();
    let outcome = trace(Path::new(root), !options.is_empty(), &mut errors).map_err(|e| errors.push(e));
    errors.iter().for_each(|e| eprintln!("{e}"));
    println!("{}", outcome.unwrap_or_else(|()| "nothing was traced".to_string()));
    ExitCode::from(u8::from(!errors.is_empty()))
}
