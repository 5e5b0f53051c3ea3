//! Writes the few SVG elements that the pictures need, one to a line.

use std::fmt::Write;

/// A place in pixels: to the right and downwards from the upper left corner.
pub type Place = (f64, f64);

/// Where a text stands beside its place.
#[derive(Clone, Copy)]
pub enum Anchor {
    Start,
    Middle,
    End,
}

pub struct Svg {
    lines: String,
}

impl Svg {
    /// A white page with a title for readers that do not see it.
    pub fn new((width, height): (u32, u32), title: &str) -> Svg {
        let mut svg = Svg {
            lines: String::new(),
        };
        svg.line(&format!(
            r#"<svg xmlns="http://www.w3.org/2000/svg" width="{width}" height="{height}" viewBox="0 0 {width} {height}" role="img" font-family="sans-serif" fill="black">"#
        ));
        svg.hint(title);
        svg.line(&format!(
            r#"<rect width="{width}" height="{height}" fill="white"/>"#
        ));
        svg
    }

    pub fn finish(mut self) -> String {
        self.line("</svg>");
        self.lines
    }

    fn line(&mut self, line: &str) {
        self.lines.push_str(line);
        self.lines.push('\n');
    }

    /// What `draw` draws, as one group with these attributes.
    pub fn group(&mut self, attributes: &str, draw: impl FnOnce(&mut Svg)) {
        self.line(&format!("<g {attributes}>"));
        draw(self);
        self.line("</g>");
    }

    pub fn text(&mut self, (x, y): Place, size: u32, anchor: Anchor, words: &str) {
        let anchor = match anchor {
            Anchor::Start => "start",
            Anchor::Middle => "middle",
            Anchor::End => "end",
        };
        let words = escaped(words);
        self.line(&format!(
            r#"<text x="{x}" y="{y}" font-size="{size}" text-anchor="{anchor}">{words}</text>"#
        ));
    }

    /// A text that runs upwards, its middle at the place.
    pub fn upward_text(&mut self, (x, y): Place, size: u32, words: &str) {
        let words = escaped(words);
        self.line(&format!(
            r#"<text transform="translate({x} {y}) rotate(-90)" font-size="{size}" text-anchor="middle">{words}</text>"#
        ));
    }

    /// What is said of the group around it where a mouse can point at it.
    pub fn hint(&mut self, words: &str) {
        self.line(&format!("<title>{}</title>", escaped(words)));
    }

    pub fn circle(&mut self, (x, y): Place, radius: f64, paint: &str) {
        self.line(&format!(
            r#"<circle cx="{x}" cy="{y}" r="{radius}"{}/>"#,
            attributes(paint)
        ));
    }

    pub fn path(&mut self, path: &str, paint: &str) {
        self.line(&format!(r#"<path d="{path}"{}/>"#, attributes(paint)));
    }

    /// A vertical arrow from one height to another, its head at the second.
    pub fn arrow(&mut self, x: f64, (from, to): (f64, f64), width: f64, colour: &str) {
        let (half, head) = (2.0 + 2.0 * width, 5.0 + 3.0 * width);
        let neck = if from < to { to - head } else { to + head };
        let line = strokes([((x, from), (x, neck))]);
        self.path(
            &line,
            &format!(r#"stroke="{colour}" stroke-width="{width}""#),
        );
        let head = format!("M{x} {to}L{} {neck}L{} {neck}z", x - half, x + half);
        self.path(&head, &format!(r#"fill="{colour}""#));
    }
}

/// The attributes after a space, or nothing where the group's are to hold.
fn attributes(paint: &str) -> String {
    match paint {
        "" => String::new(),
        _ => format!(" {paint}"),
    }
}

fn escaped(words: &str) -> String {
    words
        .replace('&', "&amp;")
        .replace('<', "&lt;")
        .replace('>', "&gt;")
}

/// The outline of a box.
pub fn outline((x, y): Place, (width, height): (f64, f64)) -> String {
    format!("M{x} {y}h{width}v{height}h-{width}z")
}

/// The outline of a diamond.
pub fn diamond((x, y): Place, reach: f64) -> String {
    format!(
        "M{x} {}l{reach} {reach}l-{reach} {reach}l-{reach} -{reach}z",
        y - reach
    )
}

/// Straight lines, each from one place to another.
pub fn strokes(lines: impl IntoIterator<Item = (Place, Place)>) -> String {
    lines
        .into_iter()
        .fold(String::new(), |mut path, ((x, y), (to_x, to_y))| {
            // A string takes all that is written to it.
            let _ = write!(path, "M{x} {y}L{to_x} {to_y}");
            path
        })
}

/// A whole number with a minus sign as wide as its digits.
pub fn signed(number: i32) -> String {
    number.to_string().replace('-', "\u{2212}")
}

/// A count with a comma before each three digits.
pub fn grouped(count: usize) -> String {
    match count {
        ..1000 => count.to_string(),
        1000.. => format!("{},{:03}", grouped(count / 1000), count % 1000),
    }
}

#[cfg(test)]
mod tests {
    use super::*;

    #[test]
    fn a_page_by_its_lines() {
        let mut svg = Svg::new((30, 20), "a < b & c");
        svg.group(r#"fill="red""#, |svg| {
            svg.circle((1.5, 2.0), 3.0, "");
            svg.text((4.0, 5.0), 12, Anchor::End, "x > y");
        });
        svg.path(&outline((1.0, 2.0), (3.0, 4.0)), r#"fill="none""#);
        let page = r#"<svg xmlns="http://www.w3.org/2000/svg" width="30" height="20" viewBox="0 0 30 20" role="img" font-family="sans-serif" fill="black">
<title>a &lt; b &amp; c</title>
<rect width="30" height="20" fill="white"/>
<g fill="red">
<circle cx="1.5" cy="2" r="3"/>
<text x="4" y="5" font-size="12" text-anchor="end">x &gt; y</text>
</g>
<path d="M1 2h3v4h-3z" fill="none"/>
</svg>
"#;
        assert_eq!(svg.finish(), page);
    }

    #[test]
    fn counts_in_groups_of_three() {
        let counts = [0, 999, 1000, 12_034, 1_000_007].map(grouped);
        assert_eq!(counts, ["0", "999", "1,000", "12,034", "1,000,007"]);
    }

    #[test]
    fn an_arrow_ends_where_it_points() {
        for (from, to, neck) in [(10.0, 40.0, 32.0), (40.0, 10.0, 18.0)] {
            let mut svg = Svg::new((30, 50), "");
            svg.arrow(20.0, (from, to), 1.0, "red");
            let svg = svg.finish();
            assert!(svg.contains(&format!(r#"<path d="M20 {from}L20 {neck}" stroke="red""#)));
            assert!(svg.contains(&format!(
                r#"<path d="M20 {to}L16 {neck}L24 {neck}z" fill="red""#
            )));
        }
    }
}
