//! What the charts are drawn with: plain SVG, panels side by side.

/// The picture's width.
pub const WIDTH: f64 = 980.0;
/// The inside of a panel.
pub const ACROSS: f64 = 380.0;
pub const TOP: f64 = 92.0;
/// How far to the right each panel begins.
pub const LEFTS: [f64; 2] = [80.0, 80.0 + ACROSS + 110.0];
pub const INK: &str = "#222222";
pub const LINES: &str = "#dddddd";

/// The first lines of a picture so high: its title, above all panels.
pub fn begun(title: &str, height: f64) -> String {
    let head = format!(
        "<svg xmlns=\"http://www.w3.org/2000/svg\" viewBox=\"0 0 {WIDTH} {height}\" width=\"{WIDTH}\" height=\"{height}\" font-family=\"sans-serif\" fill=\"{INK}\">\n<title>{title}</title>\n<rect width=\"{WIDTH}\" height=\"{height}\" fill=\"#ffffff\"/>\n"
    );
    head + &text(WIDTH / 2.0, 26.0, "middle", 17, title)
}

/// A line of text; `anchor` is start, middle or end.
pub fn text(x: f64, y: f64, anchor: &str, size: u32, words: &str) -> String {
    format!("<text x=\"{x:.1}\" y=\"{y:.1}\" text-anchor=\"{anchor}\" font-size=\"{size}\">{words}</text>\n")
}

pub fn line(from: (f64, f64), to: (f64, f64), colour: &str, width: f64) -> String {
    format!(
        "<line x1=\"{:.1}\" y1=\"{:.1}\" x2=\"{:.1}\" y2=\"{:.1}\" stroke=\"{colour}\" stroke-width=\"{width}\"/>\n",
        from.0, from.1, to.0, to.1
    )
}

/// The two axes of a panel that begins at `left` and ends at `bottom`, and what they
/// are; the words of the upright one stand so far before it.
pub fn frame(left: f64, bottom: f64, axis: &str, upright: &str, before: f64) -> String {
    let mut svg = line((left, bottom), (left + ACROSS, bottom), INK, 1.2);
    svg += &line((left, TOP), (left, bottom), INK, 1.2);
    svg += &text(left + ACROSS / 2.0, bottom + 42.0, "middle", 13, axis);
    let middle = (TOP + bottom) / 2.0;
    svg + &format!(
        "<text transform=\"translate({:.1} {middle:.1}) rotate(-90)\" text-anchor=\"middle\" font-size=\"13\">{upright}</text>\n",
        left - before
    )
}
