//! The benchmark's ratios as a bar chart in SVG: a bar for each call, grouped and coloured by operator.
use crate::reference::Op;

/// A call, the ratio of the library's time to plain Rust's, and the call's operator.
pub struct Row {
    pub name: String,
    pub ratio: f64,
    pub operator: Op,
}

/// The operators in the order of the chart, with their names and colours.
const OPERATORS: [(Op, &str, &str); 3] =
    [(Op::Convolution, "convolution", "#2f6db3"), (Op::Transposed, "transposed convolution", "#d9822b"), (Op::MaxPool, "max pooling", "#3a9b6b")];

// All lengths are in pixels. A letter counts a tenth wider than names come to in the first font, so that they fit in others too.
const LETTERS: f64 = 12.0;
const LETTER: f64 = 0.56 * LETTERS;
const MARGIN: f64 = 24.0;
const ROW: f64 = 18.0;
const BAR: f64 = 12.0;
const GROUP_GAP: f64 = 14.0;
const PLOT: f64 = 560.0;
/// Where the plot begins: below the title, the legend and the label of the line at 1.
const TOP: f64 = 122.0;

/// Where the plot lies, and the marks of its axis: their count after 0 and the ratio between two.
struct Plot {
    left: f64,
    bottom: f64,
    marks: u32,
    mark: f64,
}

impl Plot {
    fn new(groups: &[Vec<&Row>]) -> Plot {
        let rows = || groups.iter().flatten();
        let longest = rows().map(|r| r.name.chars().count()).max().unwrap_or(0);
        // There is some room beyond plain Rust's time, and for the numbers of the marks.
        let most = rows().map(|r| r.ratio).fold(1.2, f64::max);
        let mark = [0.2, 0.5, 1.0, 2.0, 5.0].into_iter().find(|m| most / m <= 12.0).unwrap_or(most / 10.0);
        let height = rows().count() as f64 * ROW + groups.len() as f64 * GROUP_GAP;
        Plot { left: MARGIN + longest as f64 * LETTER + 10.0, bottom: TOP + height, marks: (most / mark - 1e-9).ceil() as u32, mark }
    }

    fn x(&self, ratio: f64) -> f64 {
        self.left + PLOT * ratio / (f64::from(self.marks) * self.mark)
    }
}

fn escape(text: &str) -> String {
    text.replace('&', "&amp;").replace('<', "&lt;").replace('>', "&gt;")
}

/// A line of text whose anchor is start, middle or end.
fn text(x: f64, y: f64, anchor: &str, more: &str, words: &str) -> String {
    format!("<text x=\"{x:.1}\" y=\"{y:.1}\" text-anchor=\"{anchor}\"{more}>{}</text>\n", escape(words))
}

fn rectangle(x: f64, y: f64, width: f64, height: f64, colour: &str) -> String {
    format!("<rect x=\"{x:.1}\" y=\"{y:.1}\" width=\"{width:.1}\" height=\"{height:.1}\" fill=\"{colour}\"/>\n")
}

fn upright(x: f64, top: f64, bottom: f64, look: &str) -> String {
    format!("<line x1=\"{x:.1}\" y1=\"{top:.1}\" x2=\"{x:.1}\" y2=\"{bottom:.1}\" {look}/>\n")
}

/// The title and the legend of the operators that have rows.
fn head(plot: &Plot, operators: &[(&str, &str)]) -> String {
    let mut svg = text(MARGIN, 36.0, "start", " font-size=\"20\" font-weight=\"bold\"", "The library's time as a share of plain Rust's");
    svg += &text(MARGIN, 58.0, "start", " fill=\"#555\"", "Best runs of the same calls. A shorter bar means a faster library.");
    let mut x = plot.left;
    for (name, colour) in operators {
        svg += &rectangle(x, 72.0, 14.0, 14.0, colour);
        svg += &text(x + 20.0, 83.0, "start", "", name);
        x += 20.0 + name.chars().count() as f64 * LETTER + 24.0;
    }
    svg
}

/// The marks of the axis with their lines, the line at 1 and the axis's label.
fn axis(plot: &Plot) -> String {
    let mut svg = String::new();
    for mark in 0..=plot.marks {
        let ratio = f64::from(mark) * plot.mark;
        svg += &upright(plot.x(ratio), TOP, plot.bottom, "stroke=\"#e2e2e2\"");
        svg += &text(plot.x(ratio), plot.bottom + 18.0, "middle", " fill=\"#555\"", &format!("{ratio:.1}"));
    }
    svg += &upright(plot.x(1.0), TOP - 4.0, plot.bottom, "stroke=\"#222\" stroke-width=\"1.5\" stroke-dasharray=\"5 3\"");
    svg += &text(plot.x(1.0), TOP - 10.0, "middle", " font-weight=\"bold\"", "plain Rust");
    svg + &text(plot.left + PLOT / 2.0, plot.bottom + 42.0, "middle", "", "library's time / plain Rust's time")
}

/// The bars of all groups, each with its call before it and its ratio at its end.
fn bars(plot: &Plot, groups: &[Vec<&Row>], operators: &[(&str, &str)]) -> String {
    let (mut svg, mut y) = (String::new(), TOP);
    for (rows, (_, colour)) in groups.iter().zip(operators) {
        y += GROUP_GAP / 2.0;
        for row in rows {
            let end = plot.x(row.ratio);
            let (top, base) = (y + (ROW - BAR) / 2.0, y + ROW / 2.0 + LETTERS * 0.36);
            let ratio = format!("{:.2}", row.ratio);
            svg += &text(plot.left - 10.0, base, "end", "", &row.name);
            svg += &rectangle(plot.left, top, end - plot.left, BAR, colour);
            // No line of the plot runs through the ratio.
            svg += &rectangle(end + 4.0, top, ratio.len() as f64 * LETTER + 4.0, BAR, "#fff");
            svg += &text(end + 6.0, base, "start", "", &ratio);
            y += ROW;
        }
        y += GROUP_GAP / 2.0;
    }
    svg
}

/// The chart as the text of an SVG file.
pub fn chart(rows: &[Row]) -> String {
    let group = |op: Op| rows.iter().filter(|r| r.operator == op).collect::<Vec<_>>();
    let used = OPERATORS.iter().filter(|(op, ..)| rows.iter().any(|r| r.operator == *op));
    let (groups, operators): (Vec<_>, Vec<_>) = used.map(|(op, name, colour)| (group(*op), (*name, *colour))).unzip();
    let plot = Plot::new(&groups);
    let (width, height) = (plot.left + PLOT + 40.0 + MARGIN, plot.bottom + 42.0 + MARGIN);
    let mut svg = format!(
        "<svg xmlns=\"http://www.w3.org/2000/svg\" width=\"{width:.0}\" height=\"{height:.0}\" viewBox=\"0 0 {width:.0} {height:.0}\" \
         font-family=\"DejaVu Sans, Verdana, Helvetica, Arial, sans-serif\" font-size=\"{LETTERS}\" fill=\"#222\">\n"
    );
    svg += &rectangle(0.0, 0.0, width, height, "#fff");
    svg += &head(&plot, &operators);
    svg += &axis(&plot);
    svg += &bars(&plot, &groups, &operators);
    svg + "</svg>\n"
}
