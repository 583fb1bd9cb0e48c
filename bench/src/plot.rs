//! The joint run's time over gates times parties, as SVG text.

use std::fmt::Write;

use crate::measure::Times;
use crate::report::JointRow;
use crate::PARTIES;

const WIDTH: f64 = 760.0;
const HEIGHT: f64 = 480.0;
const LEFT: f64 = 80.0;
const RIGHT: f64 = 30.0;
const TOP: f64 = 50.0;
const BOTTOM: f64 = 60.0;
const TICKS: usize = 5;

/// A scale from 0 to a round number not below `most`, and its pixels.
struct Axis {
    end: f64,
    from: f64,
    to: f64,
}

impl Axis {
    fn new(most: f64, from: f64, to: f64) -> Axis {
        let power = 10f64.powf((most / TICKS as f64).log10().floor());
        let step = [1.0, 2.0, 4.0, 5.0, 10.0]
            .map(|times| times * power)
            .into_iter()
            .find(|step| step * TICKS as f64 >= most)
            .unwrap_or(10.0 * power);
        Axis {
            end: step * TICKS as f64,
            from,
            to,
        }
    }

    fn at(&self, value: f64) -> f64 {
        self.from + (self.to - self.from) * value / self.end
    }

    fn ticks(&self) -> impl Iterator<Item = f64> + '_ {
        (0..=TICKS).map(|tick| self.end * tick as f64 / TICKS as f64)
    }
}

/// One side of the comparison, and how it is drawn.
pub struct Series {
    pub name: &'static str,
    color: &'static str,
    pub of: fn(Times) -> Option<f64>,
}

pub const SERIES: [Series; 3] = [
    Series {
        name: "proved",
        color: "#b03060",
        of: |times| Some(times.proved),
    },
    Series {
        name: "Rust",
        color: "#2060b0",
        of: |times| Some(times.rust),
    },
    Series {
        name: "tuned",
        color: "#30803a",
        of: |times| times.tuned,
    },
];

/// One mark for each number of parties.
fn mark(parties: u32, x: f64, y: f64, color: &str) -> String {
    match parties {
        2 => format!("<circle cx=\"{x:.1}\" cy=\"{y:.1}\" r=\"4.5\" fill=\"{color}\"/>"),
        5 => format!(
            "<rect x=\"{:.1}\" y=\"{:.1}\" width=\"9\" height=\"9\" fill=\"{color}\"/>",
            x - 4.5,
            y - 4.5
        ),
        _ => format!(
            "<path d=\"M {x:.1} {:.1} l 5.5 10 h -11 z\" fill=\"{color}\"/>",
            y - 6.0
        ),
    }
}

pub fn joint(rows: &[JointRow]) -> String {
    const MICRO: f64 = 1000.0;
    let most = |of: &dyn Fn(&JointRow) -> f64| rows.iter().map(of).fold(1.0, f64::max);
    let x = Axis::new(most(&JointRow::size), LEFT, WIDTH - RIGHT);
    let y = Axis::new(
        most(&|row| row.times.proved.max(row.times.rust) / MICRO),
        HEIGHT - BOTTOM,
        TOP,
    );
    let mut text = String::new();
    let out = &mut text;
    let _ = writeln!(
        out,
        "<svg xmlns=\"http://www.w3.org/2000/svg\" viewBox=\"0 0 {WIDTH} {HEIGHT}\" width=\"{WIDTH}\" height=\"{HEIGHT}\" font-family=\"sans-serif\" font-size=\"13\">"
    );
    let _ = writeln!(
        out,
        "<rect width=\"{WIDTH}\" height=\"{HEIGHT}\" fill=\"#ffffff\"/>"
    );
    let _ = writeln!(
        out,
        "<text x=\"{}\" y=\"28\" text-anchor=\"middle\" font-size=\"16\">Joint run: time over gates × parties</text>",
        WIDTH / 2.0
    );
    for tick in x.ticks() {
        let at = x.at(tick);
        let _ = writeln!(
            out,
            "<line x1=\"{at:.1}\" y1=\"{TOP}\" x2=\"{at:.1}\" y2=\"{:.1}\" stroke=\"#dddddd\"/>",
            HEIGHT - BOTTOM
        );
        let _ = writeln!(
            out,
            "<text x=\"{at:.1}\" y=\"{:.1}\" text-anchor=\"middle\">{tick:.0}</text>",
            HEIGHT - BOTTOM + 20.0
        );
    }
    for tick in y.ticks() {
        let at = y.at(tick);
        let _ = writeln!(
            out,
            "<line x1=\"{LEFT}\" y1=\"{at:.1}\" x2=\"{:.1}\" y2=\"{at:.1}\" stroke=\"#dddddd\"/>",
            WIDTH - RIGHT
        );
        let _ = writeln!(
            out,
            "<text x=\"{:.1}\" y=\"{:.1}\" text-anchor=\"end\">{tick:.0}</text>",
            LEFT - 8.0,
            at + 4.0
        );
    }
    let _ = writeln!(
        out,
        "<text x=\"{}\" y=\"{}\" text-anchor=\"middle\">gates × parties</text>",
        (LEFT + WIDTH - RIGHT) / 2.0,
        HEIGHT - 16.0
    );
    let middle = (TOP + HEIGHT - BOTTOM) / 2.0;
    let _ = writeln!(
        out,
        "<text x=\"22\" y=\"{middle}\" text-anchor=\"middle\" transform=\"rotate(-90 22 {middle})\">time of a run, µs</text>"
    );
    for series in &SERIES {
        for parties in PARTIES {
            let points: Vec<(f64, f64)> = rows
                .iter()
                .filter(|row| row.parties == parties)
                .filter_map(|row| {
                    let time = (series.of)(row.times)? / MICRO;
                    Some((x.at(row.size()), y.at(time)))
                })
                .collect();
            let line: Vec<String> = points
                .iter()
                .map(|(x, y)| format!("{x:.1},{y:.1}"))
                .collect();
            let _ = writeln!(
                out,
                "<polyline points=\"{}\" fill=\"none\" stroke=\"{}\" stroke-width=\"1.2\"/>",
                line.join(" "),
                series.color
            );
            for (x, y) in points {
                let _ = writeln!(out, "{}", mark(parties, x, y, series.color));
            }
        }
    }
    legend(out);
    text.push_str("</svg>\n");
    text
}

fn legend(out: &mut String) {
    let x = LEFT + 20.0;
    let mut y = TOP + 18.0;
    for series in &SERIES {
        let _ = writeln!(
            out,
            "<line x1=\"{x}\" y1=\"{y}\" x2=\"{}\" y2=\"{y}\" stroke=\"{}\" stroke-width=\"2\"/><text x=\"{}\" y=\"{}\">{}</text>",
            x + 24.0,
            series.color,
            x + 32.0,
            y + 4.0,
            series.name
        );
        y += 20.0;
    }
    for parties in PARTIES {
        let _ = writeln!(
            out,
            "{}<text x=\"{}\" y=\"{}\">{parties} parties</text>",
            mark(parties, x + 12.0, y, "#555555"),
            x + 32.0,
            y + 4.0
        );
        y += 20.0;
    }
}
