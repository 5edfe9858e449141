//! Elements of SVG, as text.

use std::fmt::Display;

pub struct Svg(String);

pub const INK: &str = "#345";
pub const EDGE: &str = "#456";
/// A setting gets a value.
pub const DOT: &str = "#b3461f";

/// A page's colour, by its number: neighbours in number differ.
pub fn colour(number: usize) -> &'static str {
    const COLOURS: [&str; 6] = [
        "#dbe9f6", "#e7f3df", "#fdeccd", "#f4dede", "#e6e0f2", "#d9f0ee",
    ];
    COLOURS[number % COLOURS.len()]
}

impl Svg {
    pub fn new(width: f64, height: f64, title: &str) -> Svg {
        let mut svg = Svg(format!(
            "<svg xmlns=\"http://www.w3.org/2000/svg\" width=\"{width}\" height=\"{height}\" viewBox=\"0 0 {width} {height}\" font-family=\"sans-serif\" font-size=\"11\">\n<title>{title}</title>\n<rect width=\"{width}\" height=\"{height}\" fill=\"#fff\"/>\n"
        ));
        svg.text(width / 2.0, 20.0, "middle", 15, title);
        svg
    }

    pub fn text(&mut self, x: f64, y: f64, anchor: &str, size: u32, words: impl Display) {
        self.0 += &format!(
            "<text x=\"{x:.1}\" y=\"{y:.1}\" text-anchor=\"{anchor}\" font-size=\"{size}\" fill=\"{INK}\">{words}</text>\n"
        );
    }

    /// Words from bottom to top.
    pub fn upright(&mut self, x: f64, y: f64, words: impl Display) {
        self.0 += &format!(
            "<text transform=\"translate({x:.1} {y:.1}) rotate(-90)\" text-anchor=\"middle\" font-size=\"12\" fill=\"{INK}\">{words}</text>\n"
        );
    }

    /// A box that says more where a pointer rests on it.
    pub fn rect(&mut self, corner: (f64, f64), size: (f64, f64), fill: &str, told: impl Display) {
        // a page of one version in a million is still a line
        let stroke = if size.0.min(size.1) < 8.0 { 0.3 } else { 0.8 };
        self.0 += &format!(
            "<rect x=\"{:.1}\" y=\"{:.1}\" width=\"{:.1}\" height=\"{:.1}\" fill=\"{fill}\" stroke=\"{EDGE}\" stroke-width=\"{stroke}\"><title>{told}</title></rect>\n",
            corner.0, corner.1, size.0.max(0.2), size.1.max(0.2)
        );
    }

    pub fn dot(&mut self, x: f64, y: f64, radius: f64) {
        self.0 +=
            &format!("<circle cx=\"{x:.1}\" cy=\"{y:.1}\" r=\"{radius:.1}\" fill=\"{DOT}\"/>\n");
    }

    /// A level bar, around x.
    pub fn bar(&mut self, x: f64, y: f64, half: f64) {
        self.0 += &format!(
            "<path d=\"M{:.1},{y:.1}h{:.1}\" stroke=\"#000\" stroke-width=\"{:.1}\"/>\n",
            x - half,
            2.0 * half,
            half.min(2.0) / 2.0
        );
    }

    pub fn line(&mut self, from: (f64, f64), to: (f64, f64)) {
        self.0 += &format!(
            "<path d=\"M{:.1},{:.1}L{:.1},{:.1}\" stroke=\"{EDGE}\" stroke-width=\"0.6\" fill=\"none\"/>\n",
            from.0, from.1, to.0, to.1
        );
    }

    pub fn end(self) -> String {
        self.0 + "</svg>\n"
    }
}
