//! What each subcarrier carries in the first symbols, a map for each width.

use crate::frame::{Carrier, Frame, Refusal, Width};
use crate::svg::{outline, signed, strokes, Anchor, Place, Svg};

const MCS: u32 = 0;
const SYMBOLS: u32 = 8;
const TITLE: &str = "What each subcarrier carries in symbols 0 to 7";
const CAPTION: &str =
    "As the one-subcarrier question gives it: before the quarter turn of the subcarriers above 0 at 40 MHz.";
const PAGE: (u32, u32) = (864, 604);
const LEFT: f64 = 68.0;
const MAP_WIDTH: f64 = 768.0;
const ROW: f64 = 18.0;
/// Between neighbours, so that each one shows.
const GAP: f64 = 1.0;

fn frame(width: Width) -> Frame {
    Frame::new(width, MCS, 50, 93)
}

/// What a cell of the map shows.
#[derive(Clone, Copy, Debug, PartialEq, Eq)]
enum Kind {
    Data,
    PlusPilot,
    MinusPilot,
    Silent,
}

impl Kind {
    const ALL: [Kind; 4] = [Kind::Data, Kind::PlusPilot, Kind::MinusPilot, Kind::Silent];

    fn of(carrier: Carrier) -> Kind {
        match carrier {
            Carrier::Data { .. } => Kind::Data,
            Carrier::Pilot(sign) if sign > 0.0 => Kind::PlusPilot,
            Carrier::Pilot(_) => Kind::MinusPilot,
            Carrier::Silent => Kind::Silent,
            other => panic!("there is no drawing of {other:?}"),
        }
    }

    fn name(self) -> &'static str {
        match self {
            Kind::Data => "data",
            Kind::PlusPilot => "pilot +1",
            Kind::MinusPilot => "pilot \u{2212}1",
            Kind::Silent => "silent",
        }
    }

    fn is_pilot(self) -> bool {
        matches!(self, Kind::PlusPilot | Kind::MinusPilot)
    }

    fn paint(self) -> &'static str {
        match self {
            Kind::Data => r##"fill="#a6cfea""##,
            Kind::PlusPilot => r#"fill="black""#,
            Kind::MinusPilot => r##"fill="#e69f00""##,
            Kind::Silent => r##"fill="none" stroke="#c4c4c4" stroke-width="0.6""##,
        }
    }

    /// Draws cells of this kind; pilots with their signs, so that not only colour tells these apart.
    fn draw_cells(self, svg: &mut Svg, corners: &[Place], (width, height): (f64, f64)) {
        let outlines: String = corners
            .iter()
            .map(|corner| outline(*corner, (width, height)))
            .collect();
        svg.path(&outlines, self.paint());
        let reach = (width.min(7.0) - 1.0) / 2.0;
        let middles = corners
            .iter()
            .map(|(x, y)| (x + width / 2.0, y + height / 2.0));
        let across = middles
            .clone()
            .map(|(x, y)| ((x - reach, y), (x + reach, y)));
        let down = middles.map(|(x, y)| ((x, y - reach), (x, y + reach)));
        match self {
            Kind::PlusPilot => svg.path(&strokes(across.chain(down)), r#"stroke="white""#),
            Kind::MinusPilot => svg.path(&strokes(across), r#"stroke="black""#),
            Kind::Data | Kind::Silent => {}
        }
    }
}

/// A row for every symbol with its subcarriers rising, and where the first one is drawn.
struct Map {
    rows: Vec<Vec<(i32, Kind)>>,
    top: f64,
}

impl Map {
    fn of(frame: &Frame, top: f64) -> Result<Map, Refusal> {
        let row = |symbol| -> Result<Vec<(i32, Kind)>, Refusal> {
            let carriers = frame.carriers(symbol, 0)?.into_iter();
            Ok(carriers
                .map(|(k, carrier)| (k, Kind::of(carrier)))
                .collect())
        };
        let rows = (0..SYMBOLS).map(row).collect::<Result<_, _>>()?;
        Ok(Map { rows, top })
    }

    fn column_width(&self) -> f64 {
        MAP_WIDTH / self.rows[0].len() as f64
    }

    fn left_of(&self, subcarrier: i32) -> f64 {
        let lowest = self.rows[0][0].0;
        LEFT + self.column_width() * f64::from(subcarrier - lowest)
    }

    fn top_of(&self, symbol: usize) -> f64 {
        self.top + ROW * symbol as f64
    }

    /// The upper left corner of every cell of a kind.
    fn corners(&self, kind: Kind) -> Vec<Place> {
        let cells = self.rows.iter().enumerate();
        cells
            .flat_map(|(symbol, row)| row.iter().map(move |cell| (symbol, cell)))
            .filter(|(_, cell)| cell.1 == kind)
            .map(|(symbol, cell)| (self.left_of(cell.0), self.top_of(symbol)))
            .collect()
    }

    fn draw(&self, svg: &mut Svg, width: Width) {
        let count = |counted: fn(Kind) -> bool| {
            let row = self.rows[0].iter();
            row.filter(|cell| counted(cell.1)).count()
        };
        let (data, pilots) = (count(|kind| kind == Kind::Data), count(Kind::is_pilot));
        let mhz = width.mhz();
        let heading = format!("{mhz} MHz: {data} data subcarriers, {pilots} pilots");
        svg.text((LEFT, self.top - 10.0), 15, Anchor::Start, &heading);
        let cell = (self.column_width() - GAP, ROW - GAP);
        for kind in Kind::ALL {
            kind.draw_cells(svg, &self.corners(kind), cell);
        }
        self.number_rows(svg);
        self.number_columns(svg);
    }

    fn number_rows(&self, svg: &mut Svg) {
        for symbol in 0..self.rows.len() {
            let place = (LEFT - 8.0, self.top_of(symbol) + 13.0);
            svg.text(place, 12, Anchor::End, &symbol.to_string());
        }
        let middle = self.top + ROW * self.rows.len() as f64 / 2.0;
        svg.upward_text((LEFT - 34.0, middle), 13, "symbol");
    }

    fn number_columns(&self, svg: &mut Svg) {
        let below = self.top_of(self.rows.len());
        for subcarrier in self.numbered() {
            let x = self.left_of(subcarrier) + (self.column_width() - GAP) / 2.0;
            let tick = [((x, below + 1.0), (x, below + 6.0))];
            svg.path(&strokes(tick), r#"stroke="black""#);
            svg.text((x, below + 19.0), 12, Anchor::Middle, &signed(subcarrier));
        }
        let under = (LEFT + MAP_WIDTH / 2.0, below + 38.0);
        svg.text(under, 13, Anchor::Middle, "subcarrier");
    }

    /// The subcarriers with a number below the map: the outermost, the outermost used ones, the pilots and 0.
    fn numbered(&self) -> Vec<i32> {
        let row = &self.rows[0];
        let mut used = row.iter().filter(|cell| cell.1 != Kind::Silent);
        let ends = [row.first(), used.next(), used.next_back(), row.last()];
        let inner = row.iter().filter(|cell| cell.0 == 0 || cell.1.is_pilot());
        let cells = ends.into_iter().flatten().chain(inner);
        cells.map(|cell| cell.0).collect()
    }
}

pub fn draw() -> Result<String, Refusal> {
    let mut svg = Svg::new(PAGE, TITLE);
    svg.text((LEFT, 38.0), 20, Anchor::Start, TITLE);
    let rest = frame(Width::Mhz20).rest_in_words();
    let settings = format!("MCS {MCS}, {rest}; stream 0");
    svg.text((LEFT, 64.0), 13, Anchor::Start, &settings);
    for (place, kind) in (0..).zip(Kind::ALL) {
        let corner = (LEFT + 120.0 * f64::from(place), 82.0);
        kind.draw_cells(&mut svg, &[corner], (11.0, ROW - GAP));
        let beside = (corner.0 + 18.0, corner.1 + 13.0);
        svg.text(beside, 13, Anchor::Start, kind.name());
    }
    for (width, top) in [(Width::Mhz20, 146.0), (Width::Mhz40, 374.0)] {
        let map = Map::of(&frame(width), top)?;
        let id = format!(r#"id="width-{}""#, width.mhz());
        svg.group(&id, |svg| map.draw(svg, width));
    }
    svg.text((LEFT, 586.0), 13, Anchor::Start, CAPTION);
    Ok(svg.finish())
}

#[cfg(test)]
mod tests {
    use super::*;

    /// The numbers of data, pilots and silent subcarriers in every row of a width.
    const COUNTS: [(Width, [usize; 3]); 2] =
        [(Width::Mhz20, [52, 4, 8]), (Width::Mhz40, [108, 6, 14])];

    fn rows(width: Width) -> Vec<Vec<(i32, Kind)>> {
        Map::of(&frame(width), 0.0).unwrap().rows
    }

    #[test]
    fn every_symbol_has_its_data_its_pilots_and_is_silent_at_0() {
        for (width, counts) in COUNTS {
            let rows = rows(width);
            assert_eq!(rows.len(), 8);
            for row in rows {
                let count = |of: fn(Kind) -> bool| row.iter().filter(|cell| of(cell.1)).count();
                let [data, silent] = [|k| k == Kind::Data, |k| k == Kind::Silent].map(count);
                assert_eq!([data, count(Kind::is_pilot), silent], counts);
                assert!(row.contains(&(0, Kind::Silent)));
            }
        }
    }

    /// Each cell is one outline of its kind's path.
    #[test]
    fn every_cell_is_drawn() {
        let svg = draw().unwrap();
        let maps: Vec<&str> = svg.split(r#"<g id="width-"#).skip(1).collect();
        assert_eq!(maps.len(), COUNTS.len());
        for (map, (_, [data, pilots, silent])) in maps.into_iter().zip(COUNTS) {
            let drawn = |kind: Kind| {
                let path = map.lines().find(|line| line.contains(kind.paint()));
                path.unwrap().matches('M').count()
            };
            assert_eq!(drawn(Kind::Data), 8 * data);
            assert_eq!(drawn(Kind::PlusPilot) + drawn(Kind::MinusPilot), 8 * pilots);
            assert_eq!(drawn(Kind::Silent), 8 * silent);
        }
    }

    #[test]
    fn no_subcarrier_is_left_out() {
        for (width, _) in COUNTS {
            let (frame, row) = (frame(width), &rows(width)[0]);
            let outside = [row[0].0 - 1, row[row.len() - 1].0 + 1];
            for subcarrier in outside {
                let answer = frame.question(0, 0, subcarrier);
                assert_eq!(answer, Err(Refusal::Place));
            }
        }
    }

    /// Document 01's P12.
    #[test]
    fn pilots_of_two_symbols_as_checked_by_hand() {
        let rows = rows(Width::Mhz20);
        let signs = |symbol: usize| -> String {
            let pilots = rows[symbol].iter().filter(|cell| cell.1.is_pilot());
            pilots
                .map(|cell| if cell.1 == Kind::PlusPilot { '+' } else { '-' })
                .collect()
        };
        assert_eq!([signs(0), signs(1)], ["+++-", "--+-"]);
    }

    #[test]
    fn the_numbers_below_are_of_ends_and_pilots() {
        let numbers = COUNTS.map(|(width, _)| {
            let mut numbers = Map::of(&frame(width), 0.0).unwrap().numbered();
            numbers.sort();
            numbers
        });
        assert_eq!(numbers[0], [-32, -28, -21, -7, 0, 7, 21, 28, 31]);
        let at_40 = [-64, -58, -53, -25, -11, 0, 11, 25, 53, 58, 63];
        assert_eq!(numbers[1], at_40);
    }
}
