//! The points of the four modulations, a panel for each, as they are played at 40 MHz.

use crate::frame::{Carrier, Frame, Refusal, Width};
use crate::panel::{
    draw_caption, draw_head, draw_legend, legend_place, Panel, LEVELS, PAGE_OF_FOUR,
};
use crate::svg::{Place, Svg};

pub const WIDTH: Width = Width::Mhz40;
/// An MCS of each modulation.
pub const MODULATIONS: [(u32, &str); 4] = [(0, "BPSK"), (1, "QPSK"), (3, "16-QAM"), (5, "64-QAM")];
const TITLE: &str = "The points of the four modulations";
pub const BELOW: &str = r##"fill="#0072b2""##;
pub const ABOVE: &str = r##"fill="none" stroke="#d55e00" stroke-width="1.6""##;
const CAPTION: [&str; 2] = [
    "All data points of one frame for each MCS, as the points call gives them: whole levels, no modulation scale.",
    "The points of subcarriers above 0 are turned by a quarter: (a, b) becomes (\u{2212}b, a). Pilots are left out.",
];

fn frame(mcs: u32) -> Frame {
    Frame::new(WIDTH, mcs, 1500, 93)
}

/// The different data points of a frame: of the subcarriers below 0, and of those above.
#[derive(Default)]
struct Halves {
    below: Vec<[f32; 2]>,
    above: Vec<[f32; 2]>,
}

impl Halves {
    fn of(frame: &Frame) -> Result<Halves, Refusal> {
        let mut halves = Halves::default();
        for symbol in 0..frame.symbols()? {
            for used in frame.used(symbol, 0)? {
                let half = match used.subcarrier {
                    ..0 => &mut halves.below,
                    0.. => &mut halves.above,
                };
                let data = matches!(used.carrier, Carrier::Data { .. });
                if data && !half.contains(&used.point) {
                    half.push(used.point);
                }
            }
        }
        Ok(halves)
    }
}

pub fn draw() -> Result<String, Refusal> {
    let mut svg = Svg::new(PAGE_OF_FOUR, TITLE);
    let settings = format!("{} MHz, {}", WIDTH.mhz(), frame(0).rest_in_words());
    draw_head(&mut svg, TITLE, &settings);
    draw_legends(&mut svg);
    for (number, (mcs, name)) in (0..).zip(MODULATIONS) {
        let panel = Panel::of_four(number);
        let halves = Halves::of(&frame(mcs))?;
        svg.group(&format!(r#"id="mcs-{mcs}""#), |svg| {
            panel.draw_axes(svg, &format!("{name}, MCS {mcs}"), LEVELS);
            draw_marks(svg, &panel, &halves);
        });
    }
    draw_caption(&mut svg, &Panel::of_four(3), &CAPTION);
    Ok(svg.finish())
}

fn draw_marks(svg: &mut Svg, panel: &Panel, halves: &Halves) {
    let place = |&[first, second]: &[f32; 2]| panel.place(first, second);
    svg.group(BELOW, |svg| {
        halves.below.iter().for_each(|point| dot(svg, place(point)))
    });
    svg.group(ABOVE, |svg| {
        halves
            .above
            .iter()
            .for_each(|point| ring(svg, place(point)))
    });
}

fn dot(svg: &mut Svg, place: Place) {
    svg.circle(place, 3.6, "");
}

fn ring(svg: &mut Svg, place: Place) {
    svg.circle(place, 7.0, "");
}

fn draw_legends(svg: &mut Svg) {
    let [below, above] = [0.0, 220.0].map(legend_place);
    svg.group(BELOW, |svg| dot(svg, below));
    draw_legend(svg, below, "on a subcarrier below 0");
    svg.group(ABOVE, |svg| ring(svg, above));
    draw_legend(svg, above, "on a subcarrier above 0");
}

#[cfg(test)]
mod tests {
    use super::*;

    /// B bits give 2^B points, and both halves show them all.
    #[test]
    fn every_point_of_each_modulation_is_drawn() {
        let svg = draw().unwrap();
        let panels: Vec<&str> = svg.split(r#"<g id="mcs-"#).skip(1).collect();
        let counts: Vec<usize> = panels
            .iter()
            .map(|panel| panel.matches("<circle").count())
            .collect();
        assert_eq!(counts, [1, 2, 4, 6].map(|bits| 2 << bits));
    }

    /// The turn as the core does it: what the question gives, against what is played.
    #[test]
    fn only_the_upper_half_is_turned() {
        for (mcs, _) in MODULATIONS {
            for used in frame(mcs).used(0, 0).unwrap() {
                let Carrier::Data { first, second } = used.carrier else {
                    continue;
                };
                let turned = [-second, first];
                let want = match used.subcarrier {
                    ..0 => [first, second],
                    0.. => turned,
                };
                assert_eq!(used.point, want);
            }
        }
    }
}
