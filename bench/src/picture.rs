//! docs/benchmark.svg: the cost of load, run and reply against the rows, with the limit beside it; black on white, lines told
//! apart by strokes, marks and their names.

use std::fmt::Write as _;

use crate::measure::Times;

/// A panel: its title, and the times at each number of rows.
pub struct Panel {
    pub title: &'static str,
    pub points: Vec<(usize, Times)>,
}

/// A line of a panel.
struct Curve {
    name: &'static str,
    time: fn(&Times) -> f64,
    stroke: &'static str,
    mark: Mark,
}

enum Mark {
    Disc,
    Triangle,
    Square,
}

const CURVES: [Curve; 3] = [
    Curve {
        name: "evaluator",
        time: |times| times.evaluator,
        stroke: "stroke=\"black\" stroke-width=\"1.3\" stroke-dasharray=\"7 4\"",
        mark: Mark::Triangle,
    },
    Curve {
        name: "library",
        time: |times| times.library,
        stroke: "stroke=\"black\" stroke-width=\"2.2\"",
        mark: Mark::Disc,
    },
    Curve {
        name: "limit",
        time: |times| times.limit,
        stroke: "stroke=\"black\" stroke-width=\"0.7\"",
        mark: Mark::Square,
    },
];

/// Width and height of a panel's axes, and the space around them: between panels stand the names of the lines.
const WIDE: f64 = 240.0;
const HIGH: f64 = 280.0;
const LEFT: f64 = 64.0;
const TOP: f64 = 62.0;
const GAP: f64 = 100.0;
const BELOW: f64 = 46.0;
/// The rows at which the axis begins and ends, and those that it names.
const ROWS: (f64, f64) = (52.0, 2_500.0);
const NAMED_ROWS: [usize; 6] = [64, 128, 256, 512, 1_024, 2_048];
/// The least distance between two names, one above the other.
const LINE: f64 = 14.0;

/// The axes' ends, for microseconds.
struct Scale {
    least: f64,
    most: f64,
}

impl Scale {
    /// Around all that is drawn: up to a power of ten, down to one or to five times one.
    fn of(panels: &[Panel]) -> Scale {
        let all = || panels.iter().flat_map(|panel| &panel.points);
        let times = || all().flat_map(|(_, times)| CURVES.map(|curve| (curve.time)(times)));
        // A time that the clock cannot tell from none has no place on a logarithmic axis.
        let least = times().filter(|&time| time > 0.0).fold(1.0, f64::min);
        let most = times().fold(10.0, f64::max);
        let below = 10f64.powf(least.log10().floor());
        let above = 10f64.powf(most.log10().ceil());
        Scale { least: if least > 5.0 * below { 5.0 * below } else { below }, most: above }
    }

    fn y(&self, micros: f64) -> f64 {
        TOP + HIGH * (1.0 - along(micros.max(self.least), (self.least, self.most)))
    }
}

/// Where a value stands on a logarithmic axis, from 0 to 1.
fn along(value: f64, (least, most): (f64, f64)) -> f64 {
    (value / least).ln() / (most / least).ln()
}

fn x(left: f64, rows: usize) -> f64 {
    left + WIDE * along(rows as f64, ROWS)
}

pub fn svg(panels: &[Panel]) -> String {
    let scale = Scale::of(panels);
    let width = LEFT + panels.len() as f64 * (WIDE + GAP);
    let height = TOP + HIGH + BELOW;
    let mut text = format!(
        "<svg xmlns=\"http://www.w3.org/2000/svg\" viewBox=\"0 0 {width} {height}\" width=\"{width}\" height=\"{height}\" \
         font-family=\"sans-serif\" font-size=\"12\" fill=\"black\">\n\
         <rect width=\"{width}\" height=\"{height}\" fill=\"white\"/>\n\
         <text x=\"{LEFT}\" y=\"22\" font-size=\"15\">Cost of a call against the rows of a routine; \
         beside each line its name and last figure</text>\n"
    );
    let middle = TOP + HIGH / 2.0;
    let _ = writeln!(
        text,
        "<text x=\"18\" y=\"{middle}\" text-anchor=\"middle\" transform=\"rotate(-90 18 {middle})\">microseconds a call</text>"
    );
    for (k, panel) in panels.iter().enumerate() {
        let left = LEFT + k as f64 * (WIDE + GAP);
        let _ = writeln!(text, "<text x=\"{left}\" y=\"{}\" font-weight=\"bold\">{}</text>", TOP - 9.0, panel.title);
        axes(&mut text, left, &scale, k == 0);
        for curve in &CURVES {
            draw(&mut text, left, &scale, panel, curve);
        }
        names(&mut text, left, &scale, panel);
    }
    text.push_str("</svg>\n");
    text
}

fn axes(text: &mut String, left: f64, scale: &Scale, numbered: bool) {
    let bottom = TOP + HIGH;
    for rows in NAMED_ROWS {
        let _ = writeln!(
            text,
            "<path d=\"M{x:.1} {TOP}v{HIGH}\" stroke=\"#ccc\" stroke-width=\"0.5\"/>\
             <text x=\"{x:.1}\" y=\"{}\" text-anchor=\"middle\">{}</text>",
            bottom + 16.0,
            thousands(rows),
            x = x(left, rows)
        );
    }
    let mut micros = 10f64.powf(scale.least.log10().ceil());
    while micros <= scale.most * 1.01 {
        let y = scale.y(micros);
        let _ = writeln!(text, "<path d=\"M{left} {y:.1}h{WIDE}\" stroke=\"#ccc\" stroke-width=\"0.5\"/>");
        if numbered {
            let number = if micros < 0.99 { format!("{micros:.1}") } else { thousands(micros.round() as usize) };
            let _ =
                writeln!(text, "<text x=\"{}\" y=\"{:.1}\" text-anchor=\"end\">{number}</text>", left - 6.0, y + 4.0);
        }
        micros *= 10.0;
    }
    let _ = writeln!(
        text,
        "<rect x=\"{left}\" y=\"{TOP}\" width=\"{WIDE}\" height=\"{HIGH}\" fill=\"none\" stroke=\"black\" stroke-width=\"0.8\"/>\
         <text x=\"{}\" y=\"{}\" text-anchor=\"middle\">rows</text>",
        left + WIDE / 2.0,
        bottom + 34.0
    );
}

/// A line with its marks.
fn draw(text: &mut String, left: f64, scale: &Scale, panel: &Panel, curve: &Curve) {
    let places: Vec<(f64, f64)> =
        panel.points.iter().map(|(rows, times)| (x(left, *rows), scale.y((curve.time)(times)))).collect();
    let path: Vec<String> = places.iter().map(|(x, y)| format!("{x:.1} {y:.1}")).collect();
    let _ = writeln!(text, "<path d=\"M{}\" fill=\"none\" {}/>", path.join("L"), curve.stroke);
    for &(x, y) in &places {
        let _ = match curve.mark {
            Mark::Disc => writeln!(text, "<circle cx=\"{x:.1}\" cy=\"{y:.1}\" r=\"3.6\"/>"),
            Mark::Triangle => {
                writeln!(text, "<path d=\"M{x:.1} {:.1}l4.4 7.6h-8.8z\" fill=\"white\" stroke=\"black\"/>", y - 4.9)
            }
            Mark::Square => writeln!(
                text,
                "<rect x=\"{:.1}\" y=\"{:.1}\" width=\"5\" height=\"5\" fill=\"white\" stroke=\"black\" stroke-width=\"0.7\"/>",
                x - 2.5,
                y - 2.5
            ),
        };
    }
}

/// The name of each line beside its last mark, with the figure there. Names that would meet are moved apart; none crosses the
/// frame: those of a line that ends near it stand outside, and under the others it is interrupted.
fn names(text: &mut String, left: f64, scale: &Scale, panel: &Panel) {
    let Some((rows, last)) = panel.points.last() else { return };
    let (mark, frame) = (x(left, *rows), left + WIDE);
    let x = if frame - mark < 20.0 { frame + 5.0 } else { mark + 9.0 };
    let mut names = CURVES.map(|curve| ((curve.time)(last), curve.name));
    names.sort_by(|one, other| one.0.total_cmp(&other.0));
    let mut lowest_free = f64::INFINITY;
    for (micros, name) in names {
        let y = (scale.y(micros) + 4.0).min(lowest_free);
        lowest_free = y - LINE;
        let number = if micros < 10.0 { format!("{micros:.1}") } else { thousands(micros.round() as usize) };
        let words = format!("{name} {number}");
        let _ = writeln!(
            text,
            "<rect x=\"{:.1}\" y=\"{:.1}\" width=\"{:.1}\" height=\"{LINE}\" fill=\"white\"/>\
             <text x=\"{x:.1}\" y=\"{y:.1}\">{words}</text>",
            x - 2.0,
            y - 11.0,
            6.8 * words.len() as f64
        );
    }
}

/// A whole number with its thousands set apart.
fn thousands(number: usize) -> String {
    if number < 1_000 {
        return number.to_string();
    }
    format!("{},{:03}", thousands(number / 1_000), number % 1_000)
}
