//! A square panel with two axes of levels, and the words around the panels of a page.

use crate::svg::{outline, signed, strokes, Anchor, Place, Svg};

/// Where panels, title and caption begin.
pub const LEFT: f64 = 64.0;
pub const TOP: f64 = 144.0;
/// From a panel's edge to the next panel: room for the numbers, the axis name and, downwards, the next heading.
pub const ACROSS: f64 = 72.0;
pub const DOWN: f64 = 84.0;

/// Two equal panels in each of two rows, and two lines below.
pub const PAGE_OF_FOUR: (u32, u32) = (864, 1046);

/// The names of the two axes of levels.
pub const LEVELS: [&str; 2] = ["first level", "second level"];

pub struct Panel {
    centre: Place,
    /// Pixels from one level to the next.
    level: f64,
    /// The axes reach one level past the outermost, which is odd.
    outermost: i32,
}

impl Panel {
    pub fn new((left, top): Place, level: f64, outermost: i32) -> Panel {
        let half = level * f64::from(outermost + 1);
        Panel {
            centre: (left + half, top + half),
            level,
            outermost,
        }
    }

    /// The panel of a number from 0 to 3 on a page of four.
    pub fn of_four(number: u32) -> Panel {
        let (row, column) = (f64::from(number / 2), f64::from(number % 2));
        let first = Panel::new((LEFT, TOP), 22.0, 7);
        let side = 2.0 * first.half();
        let corner = (LEFT + column * (side + ACROSS), TOP + row * (side + DOWN));
        Panel::new(corner, first.level, first.outermost)
    }

    fn half(&self) -> f64 {
        self.level * f64::from(self.outermost + 1)
    }

    pub fn right(&self) -> f64 {
        self.centre.0 + self.half()
    }

    pub fn bottom(&self) -> f64 {
        self.centre.1 + self.half()
    }

    /// Where a point stands: the first level to the right, the second upwards.
    pub fn place(&self, first: f32, second: f32) -> Place {
        let (x, y) = self.centre;
        (
            x + self.level * f64::from(first),
            y - self.level * f64::from(second),
        )
    }

    /// The axes with their names, the one to the right first.
    pub fn draw_axes(&self, svg: &mut Svg, heading: &str, [right, up]: [&str; 2]) {
        let ((x, y), half) = (self.centre, self.half());
        let levels = || (-self.outermost..=self.outermost).step_by(2);
        let grid = levels().flat_map(|level| {
            let at = self.level * f64::from(level);
            [
                ((x + at, y - half), (x + at, y + half)),
                ((x - half, y + at), (x + half, y + at)),
            ]
        });
        svg.path(&strokes(grid), r##"stroke="#e4e4e4""##);
        let axes = [
            ((x, y - half), (x, y + half)),
            ((x - half, y), (x + half, y)),
        ];
        svg.path(&strokes(axes), r##"stroke="#8c8c8c""##);
        let border = outline((x - half, y - half), (2.0 * half, 2.0 * half));
        svg.path(&border, r##"fill="none" stroke="#8c8c8c""##);
        svg.text((x, y - half - 10.0), 15, Anchor::Middle, heading);
        for level in levels() {
            let (number, at) = (signed(level), self.level * f64::from(level));
            svg.text((x + at, y + half + 17.0), 12, Anchor::Middle, &number);
            svg.text((x - half - 6.0, y - at + 4.0), 12, Anchor::End, &number);
        }
        svg.text((x, y + half + 36.0), 13, Anchor::Middle, right);
        svg.upward_text((x - half - 32.0, y), 13, up);
    }
}

/// The title and the settings above the panels.
pub fn draw_head(svg: &mut Svg, title: &str, settings: &str) {
    svg.text((LEFT, 38.0), 20, Anchor::Start, title);
    svg.text((LEFT, 64.0), 13, Anchor::Start, settings);
}

/// What the picture shows, in lines below the lowest panel.
pub fn draw_caption(svg: &mut Svg, lowest: &Panel, lines: &[&str]) {
    for (place, line) in (0..).zip(lines) {
        let y = lowest.bottom() + DOWN - 10.0 + 20.0 * f64::from(place);
        svg.text((LEFT, y), 13, Anchor::Start, line);
    }
}

/// The middle of a mark in the legend, so many pixels from its left.
pub fn legend_place(from_left: f64) -> Place {
    (LEFT + 6.0 + from_left, 92.0)
}

/// What the mark at this place of the legend stands for.
pub fn draw_legend(svg: &mut Svg, (x, y): Place, words: &str) {
    svg.text((x + 16.0, y + 4.0), 13, Anchor::Start, words);
}

#[cfg(test)]
pub mod tests {
    use super::*;

    /// The outermost point stands at the crossing of the lines that are numbered 7, right and up.
    #[test]
    fn a_point_stands_at_its_levels_numbers() {
        let panel = Panel::of_four(3);
        let mut svg = Svg::new(PAGE_OF_FOUR, "");
        panel.draw_axes(&mut svg, "", LEVELS);
        let svg = svg.finish();
        let (x, y) = panel.place(7.0, 7.0);
        assert!(x > panel.centre.0 && y < panel.centre.1);
        let sevens: Vec<&str> = svg.lines().filter(|l| l.ends_with(">7</text>")).collect();
        assert_eq!(sevens.len(), 2);
        assert!(sevens[0].contains(&format!(r#" x="{x}""#)));
        assert!(sevens[1].contains(&format!(r#" y="{}""#, y + 4.0)));
    }

    #[test]
    fn the_panels_stand_on_the_page_without_overlap() {
        stand_apart(&[0, 1, 2, 3].map(Panel::of_four), PAGE_OF_FOUR);
    }

    /// All panels are on the page, and no two of them share a place.
    pub fn stand_apart(panels: &[Panel], page: (u32, u32)) {
        for (index, one) in panels.iter().enumerate() {
            let ((x, y), half) = (one.centre, one.half());
            assert!(x - half >= LEFT && x + half <= f64::from(page.0));
            assert!(y - half >= TOP && y + half <= f64::from(page.1));
            for other in &panels[..index] {
                let apart = (x - other.centre.0).abs().max((y - other.centre.1).abs());
                assert!(apart > half + other.half());
            }
        }
    }
}
