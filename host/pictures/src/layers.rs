//! The layers of crates.txt as rows with their crates, and a frame's way through them: up when it is sent, back when it is read.

use crate::crates_list::{closure, find, read, Crate, Layer};
use crate::svg::{outline, strokes, Anchor, Place, Svg};
use std::collections::BTreeSet;

const TITLE: &str = "The layers of crates, and a frame's way through them";

/// From the C calls down to the crate that gives the points, and down to the one that reads them; beside it to the numbers that
/// the calls take and return. Each lists the next.
const ABOVE_FRAME: [&[&str]; 2] = [&["capi", "calls", "frame"], &["calls", "conversions"]];
const ABOVE_READER: [&[&str]; 3] = [
    &["capi", "reader_calls", "reader"],
    &["capi", "frame_reader", "frame_steps", "reader"],
    &["reader_calls", "reader_numbers", "conversions"],
];

const WIDTH: f64 = 864.0;
const TOP: f64 = 140.0;
/// Where the points stand, above the layers.
const ENDS: f64 = TOP - 12.0;
const BAND: (f64, f64) = (76.0, 788.0);
const SEND_X: f64 = 48.0;
const READ_X: f64 = WIDTH - SEND_X;
const INSET: f64 = 14.0;
const HEADING: f64 = 28.0;
const BOX: f64 = 26.0;
const GAP: f64 = 8.0;
const SEND: &str = "#0072b2";
const READ: &str = "#d55e00";
const SEND_FILL: &str = "#cfe6f5";
const READ_FILL: &str = "#fbdcc4";
const CAPTION: [&str; 3] = [
    "Drawn from crates.txt: a row for each heading, the first one lowest. A crate needs only what stands before it.",
    "A sent frame goes up through frame, all that it needs, and the calls above it. A read frame goes back through",
    "its calls, reader, and what reader needs beyond that. A crate with a broken edge has definitions and proofs alone.",
];

/// Which frames go through a crate.
#[derive(Clone, Copy, PartialEq)]
enum Way {
    Sent,
    Read,
    Both,
    Neither,
}

/// The crates of the two ways.
struct Ways {
    sent: BTreeSet<String>,
    read: BTreeSet<String>,
}

impl Ways {
    /// Sent: through `frame`, all that it needs and the calls above it. Read: through `reader`, what it needs beyond that, and the
    /// calls above it. No frame goes through a crate without code.
    fn of(layers: &[Layer]) -> Result<Ways, String> {
        let (mut sent, mut read) = (closure(layers, "frame")?, closure(layers, "reader")?);
        read.retain(|name| !sent.contains(name));
        sent.extend(above(layers, &ABOVE_FRAME)?);
        read.extend(above(layers, &ABOVE_READER)?);
        for way in [&mut sent, &mut read] {
            way.retain(|name| find(layers, name).is_ok_and(|one| one.has_code));
        }
        Ok(Ways { sent, read })
    }

    fn through(&self, one: &Crate) -> Way {
        match (self.sent.contains(&one.name), self.read.contains(&one.name)) {
            (true, true) => Way::Both,
            (true, false) => Way::Sent,
            (false, true) => Way::Read,
            (false, false) => Way::Neither,
        }
    }
}

/// All crates of some lists, where each needs the next.
fn above(layers: &[Layer], lists: &[&[&str]]) -> Result<Vec<String>, String> {
    for pair in lists.iter().flat_map(|list| list.windows(2)) {
        let [one, next] = [pair[0], pair[1]];
        if !find(layers, one)?.needs.iter().any(|need| need == next) {
            return Err(format!("crates.txt: {one} does not list {next}"));
        }
    }
    Ok(lists.concat().into_iter().map(str::to_string).collect())
}

/// A layer's place: its upper edge and its lines of crates.
struct Row<'a> {
    layer: &'a Layer,
    top: f64,
    lines: Vec<Vec<Placed<'a>>>,
}

/// A crate with its left edge and its width.
struct Placed<'a> {
    listed: &'a Crate,
    left: f64,
    width: f64,
}

impl Placed<'_> {
    fn right(&self) -> f64 {
        self.left + self.width
    }
}

impl<'a> Row<'a> {
    fn of(layer: &'a Layer, top: f64) -> Row<'a> {
        let (left, right) = (BAND.0 + INSET, BAND.1 - INSET);
        let mut lines: Vec<Vec<Placed>> = vec![Vec::new()];
        let mut at = left;
        for listed in &layer.crates {
            let width = 18.0 + 7.5 * listed.name.len() as f64;
            if at > left && at + width > right {
                lines.push(Vec::new());
                at = left;
            }
            let placed = Placed {
                listed,
                left: at,
                width,
            };
            at = placed.right() + GAP;
            lines
                .last_mut()
                .expect("there is a first line")
                .push(placed);
        }
        Row { layer, top, lines }
    }

    fn line_top(&self, line: usize) -> f64 {
        self.top + HEADING + line as f64 * (BOX + GAP)
    }

    fn bottom(&self) -> f64 {
        self.line_top(self.lines.len()) + 2.0
    }
}

/// The first layer of the file is the lowest row.
fn rows(layers: &[Layer]) -> Vec<Row<'_>> {
    let mut top = TOP;
    let mut rows = Vec::new();
    for layer in layers.iter().rev() {
        let row = Row::of(layer, top);
        top = row.bottom() + GAP;
        rows.push(row);
    }
    rows
}

pub fn draw() -> Result<String, String> {
    draw_layers(&read()?)
}

fn draw_layers(layers: &[Layer]) -> Result<String, String> {
    let ways = Ways::of(layers)?;
    let rows = rows(layers);
    let bottom = rows.last().map_or(TOP, Row::bottom);
    let height = bottom + 48.0 + 20.0 * CAPTION.len() as f64;
    let mut svg = Svg::new((WIDTH as u32, height.ceil() as u32), TITLE);
    svg.text((INSET, 38.0), 20, Anchor::Start, TITLE);
    draw_legends(&mut svg);
    for row in &rows {
        let band = outline((BAND.0, row.top), (BAND.1 - BAND.0, row.bottom() - row.top));
        svg.path(&band, r##"fill="#f2f2f2""##);
        let heading = (BAND.0 + INSET, row.top + 19.0);
        svg.text(heading, 13, Anchor::Start, &row.layer.heading);
    }
    draw_ways(&mut svg, &rows, &ways);
    for row in &rows {
        for (line, crates) in row.lines.iter().enumerate() {
            for placed in crates {
                let corner = (placed.left, row.line_top(line));
                draw_crate(&mut svg, placed, ways.through(placed.listed), corner);
            }
        }
    }
    for (line, words) in (0..).zip(CAPTION) {
        let place = (INSET, bottom + 40.0 + 20.0 * f64::from(line));
        svg.text(place, 13, Anchor::Start, words);
    }
    Ok(svg.finish())
}

/// Each way is a line beside the layers, with a branch to every line of crates that it goes through.
fn draw_ways(svg: &mut Svg, rows: &[Row], ways: &Ways) {
    let (mut send, mut read) = (Vec::new(), Vec::new());
    for row in rows {
        for (line, crates) in row.lines.iter().enumerate() {
            let y = row.line_top(line) + BOX / 2.0;
            let on = |way: Way| {
                let crates = crates.iter();
                crates.filter(move |placed| [way, Way::Both].contains(&ways.through(placed.listed)))
            };
            if let Some(last) = on(Way::Sent).next_back() {
                send.push(((SEND_X, y), (last.right(), y)));
            }
            if let Some(first) = on(Way::Read).next() {
                read.push(((READ_X, y), (first.left, y)));
            }
        }
    }
    let lowest = |branches: &[(Place, Place)]| branches.last().map_or(TOP, |branch| branch.0 .1);
    let (send_from, read_to) = (lowest(&send), lowest(&read) + 24.0);
    for (branches, colour) in [(send, SEND), (read, READ)] {
        let paint = format!(r#"stroke="{colour}" stroke-width="3""#);
        svg.path(&strokes(branches), &paint);
    }
    svg.arrow(SEND_X, (send_from, ENDS), 3.0, SEND);
    svg.arrow(READ_X, (ENDS, read_to), 3.0, READ);
    for (x, colour, bottom) in [(SEND_X, SEND, send_from), (READ_X, READ, read_to)] {
        svg.group(&format!(r#"fill="{colour}""#), |svg| {
            svg.text((x, ENDS - 6.0), 13, Anchor::Middle, "points");
            svg.text((x, bottom + 18.0), 13, Anchor::Middle, "payload");
        });
    }
}

fn draw_crate(svg: &mut Svg, placed: &Placed, way: Way, (left, top): Place) {
    let Crate {
        name,
        needs,
        has_code,
    } = placed.listed;
    svg.group(&format!(r#"id="{name}""#), |svg| {
        svg.hint(format!("{name}: {}", needs.join(" ")).trim_end());
        draw_box(svg, way, *has_code, (left, top), placed.width);
        let middle = (left + placed.width / 2.0, top + 17.5);
        svg.text(middle, 13, Anchor::Middle, name);
    });
}

/// A box in the colour of its way; one that is on both is half of each, one without code has a broken edge.
fn draw_box(svg: &mut Svg, way: Way, has_code: bool, (left, top): Place, width: f64) {
    let (first, second, edge) = match way {
        Way::Sent => (SEND_FILL, SEND_FILL, SEND),
        Way::Read => (READ_FILL, READ_FILL, READ),
        Way::Both => (SEND_FILL, READ_FILL, "#404040"),
        Way::Neither => ("white", "white", "#9a9a9a"),
    };
    let half = width / 2.0;
    for (corner, fill) in [((left, top), first), ((left + half, top), second)] {
        svg.path(&outline(corner, (half, BOX)), &format!(r#"fill="{fill}""#));
    }
    let broken = if has_code {
        ""
    } else {
        r#" stroke-dasharray="4 3""#
    };
    let edge = format!(r#"fill="none" stroke="{edge}"{broken}"#);
    svg.path(&outline((left, top), (width, BOX)), &edge);
}

fn draw_legends(svg: &mut Svg) {
    let legends = [
        (0.0, Way::Sent, true, "on the way of a sent frame"),
        (250.0, Way::Read, true, "of a read frame"),
        (420.0, Way::Both, true, "of both"),
        (536.0, Way::Neither, true, "of neither"),
        (664.0, Way::Neither, false, "laws, no code"),
    ];
    for (from_left, way, has_code, words) in legends {
        let left = INSET + from_left;
        draw_box(svg, way, has_code, (left, 60.0), 30.0);
        svg.text((left + 38.0, 78.0), 13, Anchor::Start, words);
    }
}

#[cfg(test)]
mod tests {
    use super::*;
    use crate::crates_list::{self, ROOT};
    use std::fs;

    fn text() -> String {
        fs::read_to_string(format!("{ROOT}/crates.txt")).unwrap()
    }

    fn drawn(svg: &str) -> Vec<&str> {
        let ids = svg.split(r#"<g id=""#).skip(1);
        ids.map(|id| id.split('"').next().unwrap()).collect()
    }

    #[test]
    fn every_folder_of_crates_is_drawn_once() {
        let svg = draw().unwrap();
        let mut drawn = drawn(&svg);
        drawn.sort();
        let mut folders: Vec<String> = fs::read_dir(format!("{ROOT}/crates"))
            .unwrap()
            .map(|entry| entry.unwrap())
            .filter(|entry| entry.path().is_dir())
            .map(|entry| entry.file_name().into_string().unwrap())
            .collect();
        folders.sort();
        assert_eq!(drawn, folders);
    }

    /// Higher on the page is later in the file.
    #[test]
    fn a_crate_stands_no_lower_than_what_it_needs() {
        let layers = read().unwrap();
        let rows = rows(&layers);
        let top_of = |name: &str| {
            let row = rows.iter().find(|row| {
                let mut crates = row.lines.iter().flatten();
                crates.any(|placed| placed.listed.name == name)
            });
            row.map(|row| row.top)
        };
        let mut pairs = 0;
        for one in layers.iter().flat_map(|layer| &layer.crates) {
            for below in one.needs.iter().filter_map(|need| top_of(need)) {
                assert!(top_of(&one.name).unwrap() <= below);
                pairs += 1;
            }
        }
        assert!(pairs > layers.len());
    }

    #[test]
    fn boxes_stand_in_their_rows_without_overlap() {
        let layers = read().unwrap();
        let rows = rows(&layers);
        for pair in rows.windows(2) {
            assert!(pair[0].bottom() < pair[1].top);
        }
        for row in &rows {
            assert!(row.line_top(row.lines.len() - 1) + BOX < row.bottom());
            for line in &row.lines {
                assert!(line[0].left > BAND.0);
                assert!(line.windows(2).all(|pair| pair[0].right() < pair[1].left));
                assert!(line[line.len() - 1].right() < BAND.1);
            }
        }
    }

    /// What is sent begins at the payload's bits, what is read ends there; nothing without code carries a frame.
    #[test]
    fn the_ways_go_through_code_from_end_to_end() {
        let layers = read().unwrap();
        let ways = Ways::of(&layers).unwrap();
        let through = |name| ways.through(find(&layers, name).unwrap());
        for (name, way) in [("data_bits", Way::Sent), ("assembler", Way::Read)] {
            assert!(through(name) == way);
        }
        assert!(through("capi") == Way::Both && through("htsig") == Way::Neither);
        for one in layers.iter().flat_map(|layer| &layer.crates) {
            assert!(one.has_code || ways.through(one) == Way::Neither);
        }
    }

    #[test]
    fn a_new_crate_appears_by_itself() {
        let before = crates_list::layers(&text()).unwrap();
        let more = format!("{}new_crate: capi\n\n# A new layer\ntop:\n", text());
        let after = crates_list::layers(&more).unwrap();
        let before = draw_layers(&before).unwrap();
        let after = draw_layers(&after).unwrap();
        assert!(!drawn(&before).contains(&"new_crate"));
        assert_eq!(drawn(&after).len(), drawn(&before).len() + 2);
        assert!(after.contains(">new_crate</text>") && after.contains(">A new layer</text>"));
    }

    #[test]
    fn a_way_that_is_broken_is_an_error() {
        let error = |broken: fn(&mut Crate)| {
            let mut layers = read().unwrap();
            let crates = layers.iter_mut().flat_map(|layer| &mut layer.crates);
            crates.for_each(broken);
            draw_layers(&layers).err().unwrap()
        };
        let unlisted = error(|one| {
            one.needs
                .retain(|need| one.name != "calls" || need != "frame")
        });
        assert_eq!(unlisted, "crates.txt: calls does not list frame");
        let renamed = error(|one| one.name = one.name.replace("reader", "hearer"));
        assert_eq!(renamed, "crates.txt has no crate reader");
    }
}
