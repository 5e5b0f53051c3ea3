//! Refusals in words and numbers, against the table of docs/C-API.md.

use ht_core::{read_frame, FrameRefusal, OpenSettings, ReadRefusal, Reader, Refusal, Width};
use std::error::Error;

const C_API: &str = include_str!("../../../docs/C-API.md");

/// Number, name and words of every refusal here.
fn listed() -> Vec<(u32, String, String)> {
    let entry = |r: &Refusal| (r.number(), r.name().to_string(), r.reason().to_string());
    Refusal::ALL.iter().map(entry).collect()
}

/// The rows of the document's table, without the marks around code and the word before the reader's.
#[test]
fn the_words_are_those_of_the_document() {
    let rows: Vec<(u32, String, String)> = C_API
        .lines()
        .skip_while(|line| *line != "## Refusals")
        .filter_map(|line| {
            let mut cells = line.split('|').map(str::trim).skip(1);
            let number = cells.next()?.parse().ok()?;
            let name = cells.next()?.to_string();
            let words = cells.next()?.replace('`', "");
            let words = words.strip_prefix("reader: ").unwrap_or(&words).to_string();
            Some((number, name, words))
        })
        .collect();
    assert_eq!(listed(), rows);
}

#[test]
fn each_says_its_reason_and_its_number() {
    for refusal in Refusal::ALL {
        let (number, name) = (refusal.number(), refusal.name());
        let words = format!("{} (refusal {number} {name})", refusal.reason());
        assert_eq!(format!("{refusal:#}"), words);
        assert_eq!(refusal.to_string(), format!("refusal {number} {name}"));
        assert_eq!(Refusal::try_from(number), Ok(*refusal));
        assert_eq!(u32::from(*refusal), number);
        assert!(refusal.source().is_none());
    }
    let unknown = Refusal::try_from(31).unwrap_err();
    assert_eq!(unknown.to_string(), "no refusal has the number 31");
}

/// A program hands errors on as a box, from any thread.
#[test]
fn errors_are_boxed_and_sent() {
    let errors: Vec<Box<dyn Error + Send + Sync>> = vec![
        Box::new(Refusal::Mcs),
        Box::new(Refusal::try_from(0).unwrap_err()),
        Box::new(ReadRefusal::Code),
        Box::new(FrameRefusal::Room),
    ];
    let in_words = |errors: &[Box<dyn Error + Send + Sync>]| {
        let words = errors.iter().map(|error| error.to_string());
        words.collect::<Vec<String>>()
    };
    let here = in_words(&errors);
    let there = std::thread::spawn(move || in_words(&errors));
    assert_eq!(there.join().unwrap(), here);
}

/// The refusal that an error gives as its source.
fn source(error: &dyn Error) -> Refusal {
    let source = error.source().expect("a source");
    *source.downcast_ref().expect("a refusal")
}

#[test]
fn reading_refusals_have_a_refusal_as_source() {
    let open = OpenSettings::new(Width::Mhz20, 0, 1);
    let room = Reader::start(open).unwrap().step(&[], &mut [0]);
    let (stream, subcarrier, symbol) = (3, -58, 20_165);
    let steps = [
        room.unwrap_err(),
        ReadRefusal::Point { stream, subcarrier },
        ReadRefusal::Code,
        ReadRefusal::Frame,
    ];
    let wants = [
        ("symbol 0: ", Refusal::Room),
        ("stream 3, subcarrier -58: ", Refusal::Point),
        ("", Refusal::Code),
        ("", Refusal::Frame),
    ];
    for (step, (place, refusal)) in steps.iter().zip(wants) {
        assert_eq!((source(step), step.refusal()), (refusal, refusal));
        assert_eq!(format!("{step:#}"), format!("{place}{refusal:#}"));
    }

    let point = FrameRefusal::Point {
        symbol,
        stream,
        subcarrier,
    };
    let frames = [
        (FrameRefusal::Settings(Refusal::Length), "", Refusal::Length),
        (FrameRefusal::Room, "", Refusal::Room),
        (
            point,
            "symbol 20165, stream 3, subcarrier -58: ",
            Refusal::Point,
        ),
        (
            FrameRefusal::Code { symbol },
            "symbol 20165: ",
            Refusal::Code,
        ),
        (
            FrameRefusal::Frame { symbol },
            "symbol 20165: ",
            Refusal::Frame,
        ),
    ];
    for (frame, place, refusal) in frames {
        assert_eq!((source(&frame), frame.refusal()), (refusal, refusal));
        assert_eq!(format!("{frame:#}"), format!("{place}{refusal:#}"));
    }
    let refused = read_frame(open.mcs(32), &[], &mut []).unwrap_err();
    assert_eq!(source(&refused), Refusal::Mcs);
}
