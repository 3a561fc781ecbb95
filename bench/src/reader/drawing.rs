//! The table as a picture: a line for each row, on it a dot for each size at the ratio of the times and a tick at the limit.
//!
//! The axis goes by powers of ten, so that half the time is as far from 1 as twice the time. The picture has a background
//! of its own, to be read on white and on black.

use crate::calls::Call;
use crate::table::{self, Measured};
use crate::timing::Times;

const WIDTH: f64 = 940.0;
/// Where names end, where the axis begins and ends, and where figures end.
const NAMES: f64 = 206.0;
const LEFT: f64 = 222.0;
const RIGHT: f64 = 800.0;
const FIGURES: [f64; 2] = [852.0, 916.0];
/// Where the first group begins, and how high a group's name and a row are.
const TOP: f64 = 150.0;
const HEADING: f64 = 32.0;
const ROW: f64 = 19.0;

/// How far the axis follows the limit. Where what is written is short beside what is read, its copy takes next to no time,
/// and a place for it would leave little to the ratios.
const LEAST: f64 = 0.01;

const INK: &str = "#1f2933";
const FAINT: &str = "#66727e";
const GRID: &str = "#dfe3e6";
const LIMIT: &str = "#c2571a";

/// Radius and colour of the dots, from the smallest size to the whole: the larger ones lie below, so that three in one place show as
/// rings.
const DOTS: [(f64, &str); 3] = [(2.4, "#ffffff"), (4.2, "#7fb2e5"), (6.2, "#1d5fa6")];

/// The picture of all rows.
pub fn svg(all: &[Measured]) -> String {
    let axis = Axis::over(all);
    let groups = groups(all);
    let rows = all.len() as f64 * ROW + groups.len() as f64 * HEADING;
    let bottom = TOP + rows + 6.0;
    let mut picture = Picture::new(bottom + 48.0);
    picture.front();
    picture.legend();
    picture.axis(&axis, bottom);
    let mut y = TOP;
    for (name, members) in groups {
        picture.heading(name, y);
        y += HEADING;
        for measured in members {
            picture.row(&axis, measured, y + ROW / 2.0);
            y += ROW;
        }
    }
    picture.end()
}

/// The rows of each call, in their order.
fn groups(all: &[Measured]) -> Vec<(&'static str, Vec<&Measured>)> {
    let mut groups: Vec<(&str, Vec<&Measured>)> = Vec::new();
    for measured in all {
        let name = match measured.row.call {
            Call::Check => "check of a file",
            Call::Listing => "listing of a file",
            Call::Build => "build from a listing",
            Call::CountValues(_) => "count_values of a field",
            Call::FillValues(_) => "fill_values of a field",
            Call::CountAndFill(_) => "count and fill of a field",
        };
        match groups.last_mut() {
            Some((last, members)) if *last == name => members.push(measured),
            _ => groups.push((name, vec![measured])),
        }
    }
    groups
}

/// From ratios to places.
struct Axis {
    /// Powers of ten.
    low: f64,
    high: f64,
}

impl Axis {
    /// With a little room beside all ratios, always around 1, and over the limits as far as [`LEAST`].
    fn over(all: &[Measured]) -> Self {
        let mut axis = Axis {
            low: 0.5f64.log10(),
            high: 2.0f64.log10(),
        };
        for times in all.iter().flat_map(|measured| measured.sizes) {
            for ratio in [times.ratio(), times.limit().max(LEAST)] {
                axis.low = axis.low.min(ratio.log10());
                axis.high = axis.high.max(ratio.log10());
            }
        }
        let room = 0.03 * (axis.high - axis.low);
        axis.low -= room;
        axis.high += room;
        axis
    }

    fn x(&self, ratio: f64) -> f64 {
        let share = (ratio.log10() - self.low) / (self.high - self.low);
        LEFT + share * (RIGHT - LEFT)
    }

    /// Where lines stand: the numbers 1, 2 and 5 at each power of ten, or 1 alone where that would be too many.
    fn marks(&self) -> Vec<f64> {
        let factors: &[f64] = match self.high - self.low {
            ..=4.0 => &[1.0, 2.0, 5.0],
            _ => &[1.0],
        };
        let powers = self.low.floor() as i32..=self.high.ceil() as i32;
        let marks = powers.flat_map(|power| factors.iter().map(move |one| one * 10f64.powi(power)));
        let inside = |mark: &f64| (LEFT..=RIGHT).contains(&self.x(*mark));
        marks.filter(inside).collect()
    }
}

/// The elements so far.
struct Picture {
    text: String,
}

impl Picture {
    fn new(height: f64) -> Self {
        let text = format!(
            "<svg xmlns=\"http://www.w3.org/2000/svg\" viewBox=\"0 0 {WIDTH} {height}\" width=\"{WIDTH}\" height=\"{height}\" \
             font-family=\"Helvetica, Arial, sans-serif\" font-size=\"12\">\n\
             <title>Time of the proved library by that of the second program</title>\n\
             <rect width=\"{WIDTH}\" height=\"{height}\" rx=\"8\" fill=\"#fbfcfc\" stroke=\"#c5ccd2\"/>\n"
        );
        Picture { text }
    }

    fn end(mut self) -> String {
        self.text += "</svg>\n";
        self.text
    }

    /// What is shown, when it was timed and where.
    fn front(&mut self) {
        let title = "Time of the proved library, divided by that of the second program";
        let attributes = "font-size=\"18\" font-weight=\"bold\"";
        self.words(24.0, 36.0, INK, attributes, title);
        let how = "medians, both programs in turn, in one process";
        let origin = format!("{}: {how}", table::origin());
        self.words(24.0, 57.0, FAINT, "", &origin);
    }

    fn legend(&mut self) {
        let y = 84.0;
        let names = ["at 1/16 of the size", "at 1/4", "whole"];
        let places = [32.0, 166.0, 228.0];
        for ((dot, name), x) in DOTS.into_iter().zip(names).zip(places) {
            self.dot(x, y - 4.0, dot);
            self.words(x + 11.0, y, INK, "", name);
        }
        self.tick(296.0, y - 4.0);
        let limit = "the limit: a copy of the file, or of what is written, whole";
        self.words(303.0, y, INK, "", limit);
        self.arrow(672.0, y - 4.0);
        self.words(686.0, y, INK, "", "the limit is further left");
    }

    fn axis(&mut self, axis: &Axis, bottom: f64) {
        let one = axis.x(1.0);
        let top = TOP - 6.0;
        let (width, height) = (one - LEFT, bottom - top);
        self.add(format!(
            "<rect x=\"{LEFT}\" y=\"{top}\" width=\"{width:.1}\" height=\"{height:.1}\" fill=\"#eef6ef\"/>"
        ));
        for mark in axis.marks() {
            let x = axis.x(mark);
            self.line([x, top, x, bottom], GRID, 1.0);
            let name = format!("{mark}");
            let name = if mark == 1.0 { "1.0" } else { &name };
            for y in [top - 6.0, bottom + 16.0] {
                self.words(x, y, FAINT, "font-size=\"11\" text-anchor=\"middle\"", name);
            }
        }
        self.line([one, top, one, bottom], INK, 1.6);
        let y = top - 22.0;
        let bold = "font-size=\"11\" font-weight=\"bold\"";
        self.words(
            one - 10.0,
            y,
            FAINT,
            &format!("{bold} text-anchor=\"end\""),
            "\u{2190} faster",
        );
        self.words(one + 10.0, y, FAINT, bold, "slower \u{2192}");
        for (x, name) in FIGURES.into_iter().zip(["whole", "limit"]) {
            let colour = if name == "limit" { LIMIT } else { INK };
            self.words(
                x,
                top - 6.0,
                colour,
                "font-size=\"11\" text-anchor=\"end\"",
                name,
            );
        }
        let foot = "1.0: as fast as the second program";
        self.words(
            one,
            bottom + 34.0,
            INK,
            "font-size=\"11\" text-anchor=\"middle\"",
            foot,
        );
    }

    fn heading(&mut self, name: &str, y: f64) {
        let attributes = "font-weight=\"bold\" text-anchor=\"end\"";
        self.words(NAMES, y + 22.0, INK, attributes, name);
    }

    fn row(&mut self, axis: &Axis, measured: &Measured, y: f64) {
        let base = y + 4.0;
        self.words(NAMES, base, INK, "text-anchor=\"end\"", measured.row.name);
        self.line([LEFT, y, RIGHT, y], GRID, 0.6);
        let [.., whole] = measured.sizes;
        self.limit(axis.x(whole.limit()), y);
        let places = measured.sizes.map(|times| axis.x(times.ratio()));
        let least = places.into_iter().fold(f64::INFINITY, f64::min);
        let most = places.into_iter().fold(f64::NEG_INFINITY, f64::max);
        self.line([least, y, most, y], DOTS[2].1, 1.6);
        for (x, dot) in places.into_iter().zip(DOTS).rev() {
            self.dot(x, y, dot);
        }
        self.figures(whole, base);
    }

    fn figures(&mut self, whole: Times, y: f64) {
        let ratios = [(whole.ratio(), INK), (whole.limit(), LIMIT)];
        for (x, (ratio, colour)) in FIGURES.into_iter().zip(ratios) {
            self.words(x, y, colour, "text-anchor=\"end\"", &table::ratio(ratio));
        }
    }

    fn dot(&mut self, x: f64, y: f64, (radius, colour): (f64, &str)) {
        self.add(format!(
            "<circle cx=\"{x:.1}\" cy=\"{y:.1}\" r=\"{radius}\" fill=\"{colour}\" stroke=\"{}\" stroke-width=\"0.8\"/>",
            DOTS[2].1
        ));
    }

    /// A tick, or a head of an arrow where the limit is beyond the axis.
    fn limit(&mut self, x: f64, y: f64) {
        match x {
            LEFT.. => self.tick(x, y),
            _ => self.arrow(LEFT + 2.0, y),
        }
    }

    fn arrow(&mut self, left: f64, y: f64) {
        let (right, top, bottom) = (left + 7.0, y - 5.0, y + 5.0);
        self.add(format!(
            "<path d=\"M{left} {y}L{right} {top}V{bottom}Z\" fill=\"{LIMIT}\"/>"
        ));
    }

    fn tick(&mut self, x: f64, y: f64) {
        self.line([x, y - 6.0, x, y + 6.0], LIMIT, 2.0);
    }

    fn line(&mut self, [from_x, from_y, to_x, to_y]: [f64; 4], colour: &str, width: f64) {
        self.add(format!(
            "<line x1=\"{from_x:.1}\" y1=\"{from_y:.1}\" x2=\"{to_x:.1}\" y2=\"{to_y:.1}\" stroke=\"{colour}\" stroke-width=\"{width}\"/>"
        ));
    }

    /// None of the words here has a sign that XML takes for its own, but a processor's name may.
    fn words(&mut self, x: f64, y: f64, colour: &str, attributes: &str, words: &str) {
        let words = words.replace('&', "&amp;").replace('<', "&lt;");
        self.add(format!(
            "<text x=\"{x:.1}\" y=\"{y:.1}\" fill=\"{colour}\" {attributes}>{words}</text>"
        ));
    }

    fn add(&mut self, element: String) {
        self.text += &element;
        self.text += "\n";
    }
}
