//! One symbol's constellation, a panel for each stream.

use crate::frame::{Carrier, Frame, Refusal, Width};
use crate::panel::{
    draw_caption, draw_head, draw_legend, legend_place, Panel, LEVELS, PAGE_OF_FOUR,
};
use crate::svg::{diamond, Place, Svg};

const STREAMS: u32 = 4;
const SYMBOL: u32 = 3;
const TITLE: &str = "One symbol of four 64-QAM streams";
const DATA: &str = r##"fill="#0072b2" stroke="#0072b2" stroke-width="1.2""##;
const PILOT: &str = r##"fill="#d55e00" stroke="#d55e00" stroke-width="1.2""##;
const CAPTION: [&str; 2] = [
    "Points as the one-subcarrier question gives them: before the quarter turn of the subcarriers above 0.",
    "Levels are whole numbers, and no modulation scale is applied. A pilot's sign is its first level.",
];

fn frame() -> Frame {
    Frame::new(Width::Mhz40, 31, 1500, 93)
}

/// The points of one stream, by what they are.
struct Stream {
    data: Vec<(f32, f32)>,
    pilots: Vec<(f32, f32)>,
}

impl Stream {
    fn of(frame: &Frame, number: u32) -> Result<Stream, Refusal> {
        let (mut data, mut pilots) = (Vec::new(), Vec::new());
        for (_, carrier) in frame.carriers(SYMBOL, number)? {
            match carrier {
                Carrier::Silent => {}
                Carrier::Pilot(sign) => pilots.push((sign, 0.0)),
                Carrier::Data { first, second } => data.push((first, second)),
                other => panic!("there is no drawing of {other:?}"),
            }
        }
        Ok(Stream { data, pilots })
    }

    fn draw(&self, svg: &mut Svg, number: u32) {
        let panel = Panel::of_four(number);
        let (data, pilots) = (self.data.len(), self.pilots.len());
        let heading = format!("stream {number}: {data} data points, {pilots} pilots");
        panel.draw_axes(svg, &heading, LEVELS);
        svg.group(DATA, |svg| draw_repeated(svg, &panel, &self.data, dot));
        svg.group(PILOT, |svg| {
            draw_repeated(svg, &panel, &self.pilots, small_diamond)
        });
    }
}

pub fn draw() -> Result<String, Refusal> {
    let frame = frame();
    let mut svg = Svg::new(PAGE_OF_FOUR, TITLE);
    let (settings, symbols) = (frame.in_words(), frame.symbols()?);
    let of_these = format!("{settings}; symbol {SYMBOL} of 0 to {}", symbols - 1);
    draw_head(&mut svg, TITLE, &of_these);
    draw_legends(&mut svg);
    for number in 0..STREAMS {
        let stream = Stream::of(&frame, number)?;
        let id = format!(r#"id="stream-{number}""#);
        svg.group(&id, |svg| stream.draw(svg, number));
    }
    draw_caption(&mut svg, &Panel::of_four(STREAMS - 1), &CAPTION);
    Ok(svg.finish())
}

/// Draws a mark for every point; a mark is told how many stand at its place already.
fn draw_repeated(
    svg: &mut Svg,
    panel: &Panel,
    points: &[(f32, f32)],
    mark: fn(&mut Svg, Place, usize),
) {
    for (index, point) in points.iter().enumerate() {
        let before = points[..index].iter().filter(|p| *p == point).count();
        mark(svg, panel.place(point.0, point.1), before);
    }
}

/// A dot, or a ring around those before it.
fn dot(svg: &mut Svg, place: Place, before: usize) {
    svg.circle(place, 2.5 + 2.5 * before as f64, filled_if_first(before));
}

/// A diamond, or an outline around those before it.
fn small_diamond(svg: &mut Svg, place: Place, before: usize) {
    let path = diamond(place, 3.5 + 2.5 * before as f64);
    svg.path(&path, filled_if_first(before));
}

fn filled_if_first(before: usize) -> &'static str {
    match before {
        0 => "",
        _ => r#"fill="none""#,
    }
}

fn draw_legends(svg: &mut Svg) {
    let [data, pilot, several] = [0.0, 90.0, 190.0].map(legend_place);
    svg.group(DATA, |svg| dot(svg, data, 0));
    draw_legend(svg, data, "data");
    svg.group(PILOT, |svg| small_diamond(svg, pilot, 0));
    draw_legend(svg, pilot, "pilot");
    svg.group(DATA, |svg| (0..3).for_each(|n| dot(svg, several, n)));
    draw_legend(
        svg,
        several,
        "a ring more for each further subcarrier with the same point",
    );
}

#[cfg(test)]
mod tests {
    use super::*;

    #[test]
    fn each_panel_has_108_data_points_and_6_pilots() {
        let svg = draw().unwrap();
        let panels: Vec<&str> = svg.split(r#"<g id="stream-"#).skip(1).collect();
        assert_eq!(panels.len(), 4);
        for panel in panels {
            assert_eq!(panel.matches("<circle").count(), 108);
            let (_, pilots) = panel.split_once(PILOT).unwrap();
            assert_eq!(pilots.matches("<path").count(), 6);
            assert!(panel.contains(": 108 data points, 6 pilots<"));
        }
    }

    #[test]
    fn every_stream_is_drawn() {
        assert_eq!(frame().carriers(SYMBOL, STREAMS), Err(Refusal::Place));
    }

    /// No point falls outside its panel, and the picture is of the modulation that it names.
    #[test]
    fn data_points_are_of_64_qam_and_pilots_are_signs() {
        for number in 0..STREAMS {
            let stream = Stream::of(&frame(), number).unwrap();
            for level in stream.data.iter().flat_map(|p| [p.0, p.1]) {
                assert!([1.0, 3.0, 5.0, 7.0].contains(&level.abs()));
            }
            assert!(stream.pilots.iter().all(|p| p.0.abs() == 1.0));
        }
    }

    /// The rings are counted from the points' places, so equal points have to have equal ones.
    #[test]
    fn a_ring_stands_around_the_marks_before_it() {
        let mut svg = Svg::new(PAGE_OF_FOUR, TITLE);
        let points = [(1.0, 3.0), (3.0, 1.0), (1.0, 3.0)];
        draw_repeated(&mut svg, &Panel::of_four(0), &points, dot);
        let svg = svg.finish();
        let circles: Vec<&str> = svg.lines().filter(|l| l.starts_with("<circle")).collect();
        assert_eq!(
            circles[0].replace("2.5", "5"),
            circles[2].replace(r#" fill="none""#, "")
        );
        assert!(circles[1].ends_with(r#" r="2.5"/>"#));
    }
}
