//! A chart as plain SVG: panels side by side, both axes of each logarithmic,
//! times or bytes from bottom to top.

use hostile::measure::told;

use crate::svg::{begun, frame, line, text, ACROSS, LEFTS, LINES, TOP, WIDTH};

pub struct Chart {
    pub title: String,
    /// What stands below all panels.
    pub note: String,
    pub panels: Vec<Panel>,
}

pub struct Panel {
    pub title: String,
    /// What stands along the bottom.
    pub axis: String,
    pub measure: Measure,
    pub series: Vec<Series>,
}

/// What goes from bottom to top.
#[derive(Clone, Copy, PartialEq)]
pub enum Measure {
    Time,
    Bytes,
}

impl Measure {
    fn words(self) -> &'static str {
        match self {
            Measure::Time => "processor time",
            Measure::Bytes => "bytes",
        }
    }

    /// A power of ten on the axis.
    fn told(self, number: f64) -> String {
        match self {
            Measure::Time => told(number).replace(".00", ""),
            Measure::Bytes if number >= 1e6 => format!("{} MB", number / 1e6),
            Measure::Bytes if number >= 1e3 => format!("{} kB", number / 1e3),
            Measure::Bytes => format!("{number} B"),
        }
    }
}

pub struct Series {
    pub name: &'static str,
    pub colour: &'static str,
    pub dashed: bool,
    pub points: Vec<Point>,
}

/// A place along the bottom, and a time in seconds, or bytes: the quartiles.
pub struct Point {
    pub place: usize,
    pub quartiles: [f64; 3],
}

impl Point {
    /// On a logarithmic axis only what is above zero has a place.
    fn shown(&self) -> bool {
        self.quartiles[0] > 0.0
    }
}

const HEIGHT: f64 = 470.0;
const BOTTOM: f64 = 400.0;
/// From one row of a legend to the next.
const ROW: f64 = 20.0;

/// Powers of ten from the first to the last, as seconds or bytes.
struct Scale {
    first: i32,
    last: i32,
}

impl Scale {
    /// Enough for all points of the chart that have this measure.
    fn of(panels: &[Panel], measure: Measure) -> Scale {
        let panels = panels.iter().filter(|panel| panel.measure == measure);
        let series = panels.flat_map(|panel| &panel.series);
        let points = series.flat_map(|series| &series.points);
        let shown = points.filter(|point| point.shown());
        let powers: Vec<f64> = shown
            .flat_map(|point| point.quartiles.map(f64::log10))
            .collect();
        let lowest = powers.iter().copied().fold(f64::MAX, f64::min);
        let highest = powers.iter().copied().fold(f64::MIN, f64::max);
        Scale {
            first: lowest.floor() as i32,
            last: highest.ceil() as i32,
        }
    }

    fn height(&self, number: f64) -> f64 {
        let part = (number.log10() - f64::from(self.first)) / f64::from(self.last - self.first);
        BOTTOM - part * (BOTTOM - TOP)
    }
}

/// As long as it goes, or in dashes.
fn joined(from: (f64, f64), to: (f64, f64), series: &Series) -> String {
    let plain = line(from, to, series.colour, 2.0);
    match series.dashed {
        true => plain.replace("/>", " stroke-dasharray=\"6 4\"/>"),
        false => plain,
    }
}

/// The mark of a series, so that they differ by more than colour.
fn mark(index: usize, x: f64, y: f64, colour: &str) -> String {
    match index % 3 {
        0 => format!("<circle cx=\"{x:.1}\" cy=\"{y:.1}\" r=\"4\" fill=\"{colour}\"/>\n"),
        1 => format!(
            "<rect x=\"{:.1}\" y=\"{:.1}\" width=\"8\" height=\"8\" fill=\"{colour}\"/>\n",
            x - 4.0,
            y - 4.0
        ),
        _ => format!(
            "<polygon points=\"{x:.1},{:.1} {:.1},{:.1} {:.1},{:.1}\" fill=\"{colour}\"/>\n",
            y - 5.0,
            x - 5.0,
            y + 4.0,
            x + 5.0,
            y + 4.0
        ),
    }
}

impl Chart {
    pub fn svg(&self) -> String {
        let height = match self.one_legend() {
            true => HEIGHT,
            false => HEIGHT + ROW * self.rows() as f64 + 12.0,
        };
        let mut svg = begun(&self.title, height);
        svg += &text(WIDTH / 2.0, height - 8.0, "middle", 11, &self.note);
        if self.one_legend() {
            svg += &self.panels[0].legend((80.0, 48.0), 300.0, usize::MAX);
        }
        for (panel, left) in self.panels.iter().zip(LEFTS) {
            svg += &panel.svg(left, &Scale::of(&self.panels, panel.measure));
            if !self.one_legend() {
                svg += &panel.legend((left, BOTTOM + 66.0), 0.0, 1);
            }
        }
        svg + "</svg>\n"
    }

    /// Whether all panels have the same series: then they are told once, above.
    fn one_legend(&self) -> bool {
        let names = |panel: &Panel| -> Vec<&str> {
            let series = panel.series.iter();
            series.map(|series| series.name).collect()
        };
        let first = names(&self.panels[0]);
        self.panels.iter().all(|panel| names(panel) == first)
    }

    /// The most series of a panel.
    fn rows(&self) -> usize {
        let counts = self.panels.iter().map(|panel| panel.series.len());
        counts.max().unwrap_or(0)
    }
}

impl Panel {
    /// What each series is, so many in a row.
    fn legend(&self, (left, top): (f64, f64), apart: f64, in_row: usize) -> String {
        let mut svg = String::new();
        for (index, series) in self.series.iter().enumerate() {
            let x = left + apart * (index % in_row) as f64;
            let y = top + ROW * (index / in_row) as f64;
            svg += &joined((x - 14.0, y), (x + 14.0, y), series);
            svg += &mark(index, x, y, series.colour);
            svg += &text(x + 22.0, y + 4.5, "start", 13, series.name);
        }
        svg
    }

    fn svg(&self, left: f64, scale: &Scale) -> String {
        let mut svg = text(left + ACROSS / 2.0, TOP - 12.0, "middle", 14, &self.title);
        svg += &self.axes(left, scale);
        for (index, series) in self.series.iter().enumerate() {
            svg += &self.curve(index, series, left, scale);
        }
        svg
    }

    fn places(&self) -> Vec<usize> {
        let points = &self.series[0].points;
        points.iter().map(|point| point.place).collect()
    }

    /// How far to the right a place stands.
    fn x(&self, left: f64, place: usize) -> f64 {
        let places = self.places();
        let log = |place: usize| (place as f64).ln();
        let (first, last) = (log(places[0]), log(places[places.len() - 1]));
        left + ACROSS * (log(place) - first) / (last - first)
    }

    fn axes(&self, left: f64, scale: &Scale) -> String {
        let mut svg = String::new();
        for power in scale.first..=scale.last {
            let number = 10f64.powi(power);
            let y = scale.height(number);
            svg += &line((left, y), (left + ACROSS, y), LINES, 1.0);
            svg += &text(left - 8.0, y + 4.0, "end", 12, &self.measure.told(number));
        }
        for place in self.places() {
            let x = self.x(left, place);
            svg += &line((x, TOP), (x, BOTTOM), LINES, 1.0);
            svg += &text(x, BOTTOM + 18.0, "middle", 11, &short(place));
        }
        svg + &frame(left, BOTTOM, &self.axis, self.measure.words(), 62.0)
    }

    /// The medians, joined, each with its quartiles as an upright line.
    fn curve(&self, index: usize, series: &Series, left: f64, scale: &Scale) -> String {
        let mut svg = String::new();
        let mut before: Option<(f64, f64)> = None;
        for point in &series.points {
            if !point.shown() {
                before = None;
                continue;
            }
            let x = self.x(left, point.place);
            let [low, middle, high] = point.quartiles.map(|number| scale.height(number));
            if let Some(before) = before {
                svg += &joined(before, (x, middle), series);
            }
            svg += &line((x, low), (x, high), series.colour, 1.0);
            svg += &mark(index, x, middle, series.colour);
            before = Some((x, middle));
        }
        svg
    }
}

/// A number by its first digits, as on an axis: 1,048,573 is 1M.
fn short(number: usize) -> String {
    match number {
        n if n >= 1_000_000 => format!("{}M", n / 1_000_000),
        n if n >= 10_000 => format!("{}k", n / 1_000),
        n if n >= 1_000 => format!("{},{:03}", n / 1_000, n % 1_000),
        n => n.to_string(),
    }
}
