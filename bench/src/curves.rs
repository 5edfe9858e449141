//! Counts over releases as plain SVG: panels side by side, both axes of each from 0
//! on, a joined line for each way.

use crate::svg::{begun, frame, line, text, ACROSS, LEFTS, LINES, TOP};

pub struct Curves {
    pub title: &'static str,
    /// What each curve of a panel is.
    pub names: [&'static str; 2],
    pub panels: Vec<Panel>,
}

pub struct Panel {
    pub title: String,
    /// How many releases stand along the bottom.
    pub across: usize,
    pub curves: Vec<Curve>,
}

/// Pages in use behind each release, from the first on.
pub struct Curve {
    pub colour: &'static str,
    pub points: Vec<usize>,
    /// What is said at its end.
    pub ends: Option<String>,
}

const HEIGHT: f64 = 430.0;
const BOTTOM: f64 = 370.0;

/// A number with a comma before its last three digits.
fn told(number: usize) -> String {
    match number {
        n if n >= 1000 => format!("{},{:03}", n / 1000, n % 1000),
        n => n.to_string(),
    }
}

impl Curves {
    pub fn svg(&self) -> String {
        let mut svg = begun(self.title, HEIGHT);
        for (place, name) in self.names.iter().enumerate() {
            let x = 80.0 + 300.0 * place as f64;
            let colour = self.panels[0].curves[place].colour;
            svg += &line((x - 14.0, 48.0), (x + 14.0, 48.0), colour, 2.0);
            svg += &text(x + 22.0, 52.5, "start", 13, name);
        }
        for (panel, left) in self.panels.iter().zip(LEFTS) {
            svg += &panel.svg(left);
        }
        svg + "</svg>\n"
    }
}

impl Panel {
    /// The highest count of the axis: enough for all curves, in steps of 500.
    fn most(&self) -> usize {
        let points = self.curves.iter().flat_map(|curve| &curve.points);
        points.copied().max().unwrap_or(1).div_ceil(500) * 500
    }

    fn at(&self, left: f64, release: usize, pages: usize) -> (f64, f64) {
        let part = |count: usize, of: usize| count as f64 / of as f64;
        let x = left + ACROSS * part(release, self.across);
        (x, BOTTOM - (BOTTOM - TOP) * part(pages, self.most()))
    }

    fn svg(&self, left: f64) -> String {
        let mut svg = text(left + ACROSS / 2.0, TOP - 12.0, "middle", 14, &self.title);
        svg += &self.axes(left);
        for curve in &self.curves {
            svg += &self.curve(left, curve);
        }
        svg
    }

    fn axes(&self, left: f64) -> String {
        let mut svg = String::new();
        for pages in (0..=self.most()).step_by(500) {
            let (_, y) = self.at(left, 0, pages);
            svg += &line((left, y), (left + ACROSS, y), LINES, 1.0);
            svg += &text(left - 8.0, y + 4.0, "end", 12, &told(pages));
        }
        for release in (0..=self.across).step_by(self.across / 5) {
            let (x, _) = self.at(left, release, 0);
            svg += &text(x, BOTTOM + 18.0, "middle", 11, &told(release));
        }
        svg + &frame(left, BOTTOM, "releases", "pages in use", 56.0)
    }

    /// A point for every fifth release is as fine as the picture is.
    fn curve(&self, left: f64, curve: &Curve) -> String {
        let points = curve.points.iter().enumerate();
        let shown = points.filter(|(place, _)| place % 5 == 4 || place + 1 == curve.points.len());
        let places: Vec<String> = shown
            .map(|(place, pages)| self.at(left, place + 1, *pages))
            .map(|(x, y)| format!("{x:.1},{y:.1}"))
            .collect();
        let mut svg = format!(
            "<polyline points=\"{}\" fill=\"none\" stroke=\"{}\" stroke-width=\"1.6\"/>\n",
            places.join(" "),
            curve.colour
        );
        if let (Some(words), Some(pages)) = (&curve.ends, curve.points.last()) {
            let (x, y) = self.at(left, curve.points.len(), *pages);
            svg += &text(x - 6.0, y + 4.0, "end", 12, words);
        }
        svg
    }
}
