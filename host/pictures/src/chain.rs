//! The chain of document 01 from payload bytes to points, with what goes along each arrow for one symbol of the tour's frame.

use crate::frame::Frame;
use crate::svg::{grouped, outline, signed, Anchor, Place, Svg};
use crate::worked::{unturned, work, Shape, Worked};
use second::Kept;
use std::error::Error;

/// The payload bit that docs/TOUR.md follows.
const BYTE: usize = 520;
const BIT: u32 = 3;

const PAGE: (u32, u32) = (864, 1006);
const TITLE: &str = "From payload bytes to points";
const LEFT: f64 = 28.0;
const TOP: f64 = 96.0;
/// The boxes stand in lanes, side by side: one, one for each encoder, or one for each stream.
const LANES: (f64, f64) = (262.0, 372.0);
const LANE_GAP: f64 = 8.0;
const BIT_LEFT: f64 = 674.0;
const BOX: f64 = 36.0;
const ARROW: f64 = 32.0;
const PLAIN: &str = "#595959";
const FOLLOWED: &str = "#b34700";
const BOX_PAINT: &str = r##"fill="#e3f0f9" stroke="#0072b2""##;
const END_PAINT: &str = r##"fill="white" stroke="#8c8c8c""##;

/// A row of boxes with its words, in lines, and what leaves it.
struct Step {
    /// Document 01's number; the ends of the chain have none.
    number: Option<u32>,
    name: &'static str,
    words: String,
    boxes: Vec<String>,
    /// What each arrow below carries.
    leaving: Vec<String>,
    /// The arrow that the followed bit takes, and what it is there, in lines.
    followed: usize,
    bit: String,
}

pub fn draw() -> Result<String, Box<dyn Error>> {
    let frame = Frame::of_the_tour();
    let worked = work(&frame, BYTE, BIT)?;
    let mut svg = Svg::new(PAGE, TITLE);
    svg.text((LEFT, 38.0), 20, Anchor::Start, TITLE);
    svg.text((LEFT, 62.0), 13, Anchor::Start, &frame.in_words());
    svg.group(&format!(r#"fill="{FOLLOWED}""#), |svg| {
        svg.text(
            (BIT_LEFT, TOP + 18.0),
            15,
            Anchor::Start,
            "One bit on its way",
        );
    });
    let mut top = TOP;
    for step in steps(&frame, &worked) {
        step.draw(&mut svg, top);
        top += BOX + ARROW;
    }
    for line in caption(worked.way.symbol) {
        svg.text((LEFT, top + 12.0), 13, Anchor::Start, &line);
        top += 20.0;
    }
    Ok(svg.finish())
}

fn caption(symbol: usize) -> [String; 4] {
    [
        format!("At each arrow: how much goes there for one symbol, here symbol {symbol}. In circles: document 01's steps."),
        "On the right: the bit that docs/TOUR.md follows, what it is after each step, and where it stands.".to_string(),
        "Bits, labels and their counts are the second program's; its points are compared with the core's before".to_string(),
        "anything is drawn. Pilots, turn and floats are the core's answers.".to_string(),
    ]
}

fn steps(frame: &Frame, worked: &Worked) -> Vec<Step> {
    let mut steps = Vec::from(frame_steps(frame, worked));
    steps.extend(encoder_steps(worked));
    steps.extend(stream_steps(worked));
    steps.extend(point_steps(worked));
    steps
}

fn frame_steps(frame: &Frame, worked: &Worked) -> [Step; 3] {
    let Worked {
        service_bits,
        frame_bits,
        counts,
        way,
        ..
    } = worked;
    let bytes = frame.payload.len();
    let payload_bits = grouped(8 * bytes);
    let tail_and_pad = frame_bits - service_bits - 8 * bytes;
    let (whole, symbols) = (grouped(*frame_bits), worked.shape.symbols);
    let (data_bit, payload_bit) = (grouped(way.data_bit), way.payload_bit);
    [
        Step {
            number: None,
            name: "Payload",
            words: String::new(),
            boxes: vec![format!("{} bytes", grouped(bytes))],
            leaving: vec![format!("{payload_bits} bits, all of the frame")],
            followed: 0,
            bit: format!("bit {BIT} of byte {BYTE}: {payload_bit}"),
        },
        Step {
            number: Some(1),
            name: "Data bits",
            words: format!("{whole} bits of the frame,\nin {symbols} symbols"),
            boxes: vec![format!(
                "{service_bits} service, {payload_bits} payload, {tail_and_pad} tail and pad"
            )],
            leaving: each(&[counts.data_bits], "bits"),
            followed: 0,
            bit: format!(
                "data bit {data_bit}: {payload_bit}\nin symbol {}",
                way.symbol
            ),
        },
        Step {
            number: Some(1),
            name: "Scrambler",
            words: "the tail is set to zero after it".to_string(),
            boxes: vec![format!("seed {}", frame.for_second().seed)],
            leaving: each(&[counts.scrambled], "bits"),
            followed: 0,
            bit: format!("scrambled: {}", way.input),
        },
    ]
}

fn encoder_steps(
    Worked {
        shape, counts, way, ..
    }: &Worked,
) -> [Step; 3] {
    let encoders = shape.encoders;
    let (encoder, step, input) = (way.encoder, grouped(way.step), way.input);
    let (steps, kept) = shape.rate;
    let pattern = in_words(&second::pattern(shape.rate));
    [
        Step {
            number: Some(2),
            name: "Encoder parser",
            words: "the encoders take turns".to_string(),
            boxes: vec![format!("bit d to encoder d mod {encoders}")],
            leaving: each(&counts.inputs, "bits"),
            followed: encoder,
            bit: format!("encoder {encoder}, step {step}: {input}"),
        },
        Step {
            number: Some(2),
            name: "Encoders",
            words: "two sums, A and B, at each step".to_string(),
            boxes: numbered("encoder", encoders),
            leaving: each(&counts.sums, "bits"),
            followed: encoder,
            bit: format!("sum {} of the step: {}", way.sum, way.coded_bit),
        },
        Step {
            number: Some(3),
            name: "Puncturing",
            words: format!("rate {steps}/{kept}: of {steps} steps\n{kept} sums are kept"),
            boxes: vec![pattern; encoders as usize],
            leaving: each(&counts.kept, "bits"),
            followed: encoder,
            bit: format!("bit {}: {}", grouped(way.kept), way.coded_bit),
        },
    ]
}

fn stream_steps(
    Worked {
        shape, counts, way, ..
    }: &Worked,
) -> [Step; 2] {
    let Shape {
        width,
        bits_per_carrier,
        streams,
        ..
    } = *shape;
    let block = second::axis_bits(bits_per_carrier);
    let (columns, rows) = (
        second::columns(width),
        second::rows(width, bits_per_carrier),
    );
    [
        Step {
            number: Some(4),
            name: "Stream parser",
            words: "the encoders take turns\nafter each round".to_string(),
            boxes: vec![format!("{block} bits at a time, round {streams} streams")],
            leaving: each(&counts.parsed, "bits"),
            followed: way.stream,
            bit: format!("stream {}, bit {}", way.stream, way.stream_bit),
        },
        Step {
            number: Some(5),
            name: "Interleaver",
            words: format!("{columns} columns of {rows} rows,\neach stream rotated"),
            boxes: numbered("stream", streams),
            leaving: each(&counts.interleaved, "bits"),
            followed: way.stream,
            bit: format!("place {}", way.place),
        },
    ]
}

fn point_steps(
    Worked {
        shape, counts, way, ..
    }: &Worked,
) -> [Step; 4] {
    let bits = shape.bits_per_carrier;
    let (pilots, data, turned) = (counts.pilots[0], counts.data_points[0], counts.turned[0]);
    let digits: Vec<String> = way.label.iter().map(u8::to_string).collect();
    let halves = digits.split_at(digits.len() / 2);
    let label = format!("{} {}", halves.0.concat(), halves.1.concat());
    let levels = in_brackets(unturned(way.used.carrier));
    [
        Step {
            number: Some(6),
            name: "Mapper",
            words: format!("each {bits} bits a point\nof {}", modulation(bits)),
            boxes: numbered("stream", shape.streams),
            leaving: each(&counts.data_points, "points"),
            followed: way.stream,
            bit: format!("carrier {}: label\n{label}, {levels}", way.carrier),
        },
        Step {
            number: Some(7),
            name: "Pilots",
            words: format!("{pilots} beside the {data} data\nsubcarriers of each stream"),
            boxes: numbered("stream", shape.streams),
            leaving: each(&counts.points, "points"),
            followed: way.stream,
            bit: format!("subcarrier {}: {levels}", signed(way.used.subcarrier)),
        },
        Step {
            number: Some(8),
            name: "Upper-half turn",
            words: format!("(a, b) becomes (\u{2212}b, a) on the\n{turned} subcarriers above 0"),
            boxes: numbered("stream", shape.streams),
            leaving: each(&counts.points, "points"),
            followed: way.stream,
            bit: format!("turned: {}", in_brackets(way.used.point)),
        },
        Step {
            number: None,
            name: "Points",
            words: "two levels a point,\nstream by stream".to_string(),
            boxes: vec![format!("{} floats", grouped(counts.floats))],
            leaving: Vec::new(),
            followed: 0,
            bit: format!("floats {} and {}", way.float, way.float + 1),
        },
    ]
}

fn numbered(name: &str, count: u32) -> Vec<String> {
    let numbers = 0..count;
    numbers.map(|number| format!("{name} {number}")).collect()
}

fn each(counts: &[usize], what: &str) -> Vec<String> {
    let counts = counts.iter();
    counts
        .map(|count| format!("{} {what}", grouped(*count)))
        .collect()
}

fn in_words(pattern: &[Kept]) -> String {
    let names = pattern.iter().map(|kept| match kept {
        Kept::A(step) => format!("A{step}"),
        Kept::B(step) => format!("B{step}"),
    });
    names.collect::<Vec<_>>().join(" ")
}

fn modulation(bits_per_carrier: u32) -> String {
    match bits_per_carrier {
        1 => "BPSK".to_string(),
        2 => "QPSK".to_string(),
        more => format!("{}-QAM", 1 << more),
    }
}

/// Two levels; they are whole numbers.
fn in_brackets([first, second]: [f32; 2]) -> String {
    format!("({}, {})", signed(first as i32), signed(second as i32))
}

/// The middle of a lane among so many, and the width of its box.
fn lane(number: usize, of: usize) -> (f64, f64) {
    let (left, width) = LANES;
    let pitch = width / of as f64;
    (left + pitch * (number as f64 + 0.5), pitch - LANE_GAP)
}

impl Step {
    fn draw(&self, svg: &mut Svg, top: f64) {
        if let Some(number) = self.number {
            let middle = (LEFT + 10.0, top + 13.0);
            svg.circle(middle, 10.0, BOX_PAINT);
            let under = (middle.0, middle.1 + 4.5);
            svg.text(under, 13, Anchor::Middle, &number.to_string());
        }
        svg.text((LEFT + 28.0, top + 18.0), 15, Anchor::Start, self.name);
        svg.group(&format!(r#"fill="{PLAIN}""#), |svg| {
            draw_lines(svg, (LEFT + 28.0, top + 35.0), &self.words)
        });
        for (number, words) in self.boxes.iter().enumerate() {
            let (middle, width) = lane(number, self.boxes.len());
            let paint = self.number.map_or(END_PAINT, |_| BOX_PAINT);
            svg.path(&outline((middle - width / 2.0, top), (width, BOX)), paint);
            svg.text((middle, top + 22.5), 13, Anchor::Middle, words);
        }
        self.draw_arrows(svg, top + BOX);
        self.draw_bit(svg, top + BOX);
    }

    fn draw_arrows(&self, svg: &mut Svg, top: f64) {
        for (number, words) in self.leaving.iter().enumerate() {
            let (x, _) = lane(number, self.leaving.len());
            let (width, colour) = match number == self.followed {
                true => (2.4, FOLLOWED),
                false => (1.2, PLAIN),
            };
            svg.arrow(x, (top + 1.0, top + ARROW - 1.0), width, colour);
            svg.text((x + 10.0, top + 18.0), 12, Anchor::Start, words);
        }
    }

    /// Beside the arrow; at the end of the chain beside the box.
    fn draw_bit(&self, svg: &mut Svg, top: f64) {
        let up = if self.leaving.is_empty() { 32.0 } else { 0.0 };
        svg.group(&format!(r#"fill="{FOLLOWED}""#), |svg| {
            draw_lines(svg, (BIT_LEFT, top - up + 18.0), &self.bit)
        });
    }
}

fn draw_lines(svg: &mut Svg, (x, y): Place, words: &str) {
    for (line, words) in (0..).zip(words.lines()) {
        svg.text((x, y + 15.0 * f64::from(line)), 12, Anchor::Start, words);
    }
}

#[cfg(test)]
mod tests {
    use super::*;

    fn worked() -> Worked {
        work(&Frame::of_the_tour(), BYTE, BIT).unwrap()
    }

    #[test]
    fn counts_as_checked_by_hand() {
        let counts = worked().counts;
        assert_eq!([counts.data_bits, counts.scrambled], [2160; 2]);
        assert_eq!(counts.inputs, [1080; 2]);
        assert_eq!(counts.sums, [2160; 2]);
        assert_eq!(counts.kept, [1296; 2]);
        assert_eq!([counts.parsed, counts.interleaved], [[648; 4]; 2]);
        assert_eq!(counts.data_points, [108; 4]);
        assert_eq!(counts.pilots, [6; 4]);
        assert_eq!(counts.points, [114; 4]);
        assert_eq!(counts.turned, [57; 4]);
        assert_eq!(counts.floats, 912);
    }

    /// The picture's numbers stand in the tour, whose own test has them of the core and of the second program.
    #[test]
    fn the_bit_goes_where_the_tour_says() {
        let tour = include_str!("../../../docs/TOUR.md");
        let tour = tour.split_whitespace().collect::<Vec<_>>().join(" ");
        let Worked {
            way, shape, counts, ..
        } = worked();
        let [first, second] = unturned(way.used.carrier);
        let [turned_first, turned_second] = way.used.point;
        let label: String = way.label.iter().map(u8::to_string).collect();
        for words in [
            format!("bit {BIT} of byte {BYTE}"),
            format!("N_DBPS = {}", grouped(counts.data_bits)),
            format!("The frame has {} symbols", shape.symbols),
            format!("= {}, of symbol", grouped(way.data_bit)),
            format!("the encoders get a {}", way.input),
            format!("step {} of encoder {}", grouped(way.step), way.encoder),
            format!("sum {} is {}", way.sum, way.coded_bit),
            format!("bit {} of its", grouped(way.kept)),
            format!("in symbol {}", way.symbol),
            format!("bit {} of stream {}", way.stream_bit, way.stream),
            format!("place {} of the block", way.place),
            format!("of carrier {}", way.carrier),
            format!(
                "label is {} {}: levels {first} and {second}",
                &label[..3],
                &label[3..]
            ),
            format!("subcarrier {}", way.used.subcarrier),
            format!("({first}, {second}) becomes ({turned_first}, {turned_second})"),
            format!("floats {} and {}", way.float, way.float + 1),
        ] {
            assert!(tour.contains(&words), "docs/TOUR.md has no \"{words}\"");
        }
    }

    /// An arrow leaves for each lane of the row or of the next one; one of each row is the followed bit's.
    #[test]
    fn every_lane_is_drawn() {
        let (frame, worked) = (Frame::of_the_tour(), worked());
        let steps = steps(&frame, &worked);
        for pair in steps.windows(2) {
            let lanes = pair[0].boxes.len().max(pair[1].boxes.len());
            assert_eq!(pair[0].leaving.len(), lanes, "{}", pair[0].name);
        }
        let arrows: usize = steps.iter().map(|step| step.leaving.len()).sum();
        let svg = draw().unwrap();
        let heads = |colour: &str| svg.matches(&format!(r#"z" fill="{colour}"/>"#)).count();
        assert_eq!(heads(FOLLOWED), steps.len() - 1);
        assert_eq!(heads(PLAIN) + heads(FOLLOWED), arrows);
        for words in steps.iter().flat_map(|step| &step.leaving) {
            assert!(svg.contains(&format!(">{words}</text>")));
        }
    }

    /// Document 01's steps in order, none left out.
    #[test]
    fn all_eight_steps_are_there() {
        let mut numbers: Vec<u32> = steps(&Frame::of_the_tour(), &worked())
            .iter()
            .filter_map(|step| step.number)
            .collect();
        assert!(numbers.is_sorted());
        numbers.dedup();
        assert_eq!(numbers, [1, 2, 3, 4, 5, 6, 7, 8]);
    }
}
