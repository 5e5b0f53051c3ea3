//! The points of the four modulations with their labels, a panel for each, as they are played at 40 MHz.

use crate::frame::{Frame, Width};
use crate::labels::{labelled, Labelled};
use crate::modulations::{ABOVE, BELOW, MODULATIONS, WIDTH};
use crate::panel::{draw_caption, draw_head, draw_legend, legend_place, Panel};
use crate::panel::{ACROSS, DOWN, LEFT, TOP};
use crate::svg::{Anchor, Place, Svg};
use std::error::Error;

const PAGE: (u32, u32) = (864, 1236);
const I_AND_Q: [&str; 2] = ["I (first level)", "Q (second level)"];
const TITLE: &str = "The points of the four modulations, and their labels";
/// Digits on a ground of their own, since lines and axes pass behind them.
const LABEL: &str =
    r#"font-family="monospace" stroke="white" stroke-width="3" paint-order="stroke""#;
const BELOW_LABEL: &str = r##"fill="#005a8e""##;
const ABOVE_LABEL: &str = r##"fill="#a84300""##;
const CAPTION: [&str; 4] = [
    "Points of one frame for each MCS, as the points call gives them: whole levels, no modulation scale, no pilots.",
    "A label is what the second program's coding chain puts on the carrier of a point, first bit first; over the",
    "whole frame each point has one. Below 0 the first half of its bits gives I, the second half Q; BPSK has no Q.",
    "Above 0 points are turned by a quarter: (a, b) becomes (\u{2212}b, a). At 20 MHz none is: all are as below 0 here.",
];

fn frame(width: Width, mcs: u32) -> Frame {
    Frame::new(width, mcs, 1500, 93)
}

/// A point as it is played, with the label that it carries.
#[derive(Debug, PartialEq)]
struct Mark {
    point: [f32; 2],
    label: String,
}

/// The different data points of a frame: of the subcarriers below 0, and of those above.
#[derive(Default)]
struct Halves {
    below: Vec<Mark>,
    above: Vec<Mark>,
}

impl Halves {
    fn of(frame: &Frame) -> Result<Halves, Box<dyn Error>> {
        let mut halves = Halves::default();
        for Labelled { used, label } in labelled(frame)? {
            let half = match used.subcarrier {
                ..0 => &mut halves.below,
                0.. => &mut halves.above,
            };
            let label = label.iter().map(u8::to_string).collect();
            let point = used.point;
            add(half, Mark { point, label })?;
        }
        Ok(halves)
    }
}

/// A mark that is there already is not added; a second label of a point, or point of a label, is an error.
fn add(half: &mut Vec<Mark>, mark: Mark) -> Result<(), String> {
    let other = half
        .iter()
        .find(|other| other.point == mark.point || other.label == mark.label);
    match other {
        None => half.push(mark),
        Some(other) if *other == mark => {}
        Some(other) => return Err(format!("{mark:?} beside {other:?}")),
    }
    Ok(())
}

/// Three panels in a row for levels to 3, and a large one below them, since a point of 64-QAM has twice six bits beside it.
fn panels() -> [Panel; 4] {
    let small = |left| Panel::new((left, TOP), 26.0, 3);
    let first = small(LEFT);
    let second = small(first.right() + ACROSS);
    let third = small(second.right() + ACROSS);
    let large = Panel::new((128.0, third.bottom() + DOWN), 40.0, 7);
    [first, second, third, large]
}

pub fn draw() -> Result<String, Box<dyn Error>> {
    let mut svg = Svg::new(PAGE, TITLE);
    let settings = format!("{} MHz, {}", WIDTH.mhz(), frame(WIDTH, 0).rest_in_words());
    draw_head(&mut svg, TITLE, &settings);
    draw_legends(&mut svg);
    let panels = panels();
    for ((mcs, name), panel) in MODULATIONS.into_iter().zip(&panels) {
        let halves = Halves::of(&frame(WIDTH, mcs))?;
        svg.group(&format!(r#"id="mcs-{mcs}""#), |svg| {
            panel.draw_axes(svg, &format!("{name}, MCS {mcs}"), I_AND_Q);
            draw_marks(svg, panel, &halves);
        });
    }
    draw_caption(&mut svg, &panels[3], &CAPTION);
    Ok(svg.finish())
}

fn draw_marks(svg: &mut Svg, panel: &Panel, halves: &Halves) {
    let places = |marks: &[Mark]| -> Vec<(Place, String)> {
        let marks = marks.iter();
        marks
            .map(|Mark { point, label }| (panel.place(point[0], point[1]), label.clone()))
            .collect()
    };
    let (below, above) = (places(&halves.below), places(&halves.above));
    svg.group(LABEL, |svg| {
        svg.group(BELOW_LABEL, |svg| draw_labels(svg, &below, -10.0));
        svg.group(ABOVE_LABEL, |svg| draw_labels(svg, &above, 19.0));
    });
    svg.group(BELOW, |svg| {
        below.iter().for_each(|(place, _)| dot(svg, *place))
    });
    svg.group(ABOVE, |svg| {
        above.iter().for_each(|(place, _)| ring(svg, *place))
    });
}

fn draw_labels(svg: &mut Svg, marks: &[(Place, String)], down: f64) {
    for ((x, y), label) in marks {
        svg.text((*x, y + down), 13, Anchor::Middle, label);
    }
}

fn dot(svg: &mut Svg, place: Place) {
    svg.circle(place, 3.6, "");
}

fn ring(svg: &mut Svg, place: Place) {
    svg.circle(place, 7.0, "");
}

fn draw_legends(svg: &mut Svg) {
    let [below, above] = [0.0, 370.0].map(legend_place);
    svg.group(BELOW, |svg| dot(svg, below));
    draw_legend(
        svg,
        below,
        "on a subcarrier below 0; its label stands above",
    );
    svg.group(ABOVE, |svg| ring(svg, above));
    draw_legend(
        svg,
        above,
        "on a subcarrier above 0; its label stands beneath",
    );
}

#[cfg(test)]
mod tests {
    use super::*;
    use crate::frame::Carrier;
    use crate::panel::tests::stand_apart;

    /// B bits give 2^B points, and both halves show them all, each with its label.
    #[test]
    fn every_point_of_each_modulation_is_drawn() {
        let svg = draw().unwrap();
        let panels: Vec<&str> = svg.split(r#"<g id="mcs-"#).skip(1).collect();
        let count = |what: &str| -> Vec<usize> {
            let panels = panels.iter();
            panels.map(|panel| panel.matches(what).count()).collect()
        };
        assert_eq!(count("<circle"), [1, 2, 4, 6].map(|bits| 2 << bits));
        for (panel, bits) in panels.iter().zip([1, 2, 4, 6]) {
            for group in [BELOW_LABEL, ABOVE_LABEL] {
                let (_, labels) = panel.split_once(&format!("<g {group}>")).unwrap();
                let (labels, _) = labels.split_once("</g>").unwrap();
                for number in 0..1 << bits {
                    let label = format!(">{number:0bits$b}</text>");
                    assert_eq!(labels.matches(&label).count(), 1, "{label}");
                }
            }
        }
    }

    /// The turn as the core does it: what the question gives, against what is played.
    #[test]
    fn only_the_upper_half_is_turned() {
        for (mcs, _) in MODULATIONS {
            for used in frame(WIDTH, mcs).used(0, 0).unwrap() {
                let Carrier::Data { first, second } = used.carrier else {
                    continue;
                };
                let turned = [-second, first];
                let want = match used.subcarrier {
                    ..0 => [first, second],
                    0.. => turned,
                };
                assert_eq!(used.point, want);
            }
        }
    }

    /// The second program's levels of each label are the core's levels, by the one-subcarrier question.
    #[test]
    fn labels_give_the_cores_levels() {
        for (mcs, _) in MODULATIONS {
            for Labelled { used, label } in labelled(&frame(WIDTH, mcs)).unwrap() {
                let point = second::point(&label).unwrap();
                let [first, second] = [point.first, point.second].map(second::float);
                assert_eq!(used.carrier, Carrier::Data { first, second });
            }
        }
    }

    /// Clause 18's labels are Gray coded. A point's next one is two levels away; BPSK has no second row.
    #[test]
    fn neighbours_differ_in_one_bit() {
        for (mcs, _) in MODULATIONS {
            let halves = Halves::of(&frame(WIDTH, mcs)).unwrap();
            for half in [halves.below, halves.above] {
                let bits = half[0].label.len();
                let mut pairs = 0;
                for (one, other) in half
                    .iter()
                    .flat_map(|one| half.iter().map(move |o| (one, o)))
                {
                    let apart = [0, 1].map(|axis| (one.point[axis] - other.point[axis]).abs());
                    if apart == [2.0, 0.0] || apart == [0.0, 2.0] {
                        let both = one.label.bytes().zip(other.label.bytes());
                        assert_eq!(both.filter(|(a, b)| a != b).count(), 1);
                        pairs += 1;
                    }
                }
                // Both orders of each pair: 2^(B/2) - 1 of them in each row and column.
                let side = 1 << (bits / 2);
                let want = if bits == 1 { 2 } else { 4 * side * (side - 1) };
                assert_eq!(pairs, want);
            }
        }
    }

    /// The caption's word of 20 MHz.
    #[test]
    fn at_20_mhz_all_points_are_as_below_0() {
        for (mcs, _) in MODULATIONS {
            let at_40 = Halves::of(&frame(Width::Mhz40, mcs)).unwrap();
            let at_20 = Halves::of(&frame(Width::Mhz20, mcs)).unwrap();
            for half in [&at_20.below, &at_20.above] {
                assert_eq!(half.len(), at_40.below.len());
                assert!(half.iter().all(|mark| at_40.below.contains(mark)));
            }
        }
    }

    #[test]
    fn a_second_label_or_a_second_point_is_an_error() {
        let mark = |point, label: &str| Mark {
            point,
            label: label.to_string(),
        };
        let mut half = Vec::new();
        assert_eq!(add(&mut half, mark([1.0, 0.0], "1")), Ok(()));
        assert_eq!(add(&mut half, mark([1.0, 0.0], "1")), Ok(()));
        assert!(add(&mut half, mark([1.0, 0.0], "0")).is_err());
        assert!(add(&mut half, mark([-1.0, 0.0], "1")).is_err());
        assert_eq!(half.len(), 1);
    }

    #[test]
    fn the_panels_stand_on_the_page_without_overlap() {
        stand_apart(&panels(), PAGE);
    }
}
