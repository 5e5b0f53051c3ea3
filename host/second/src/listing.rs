//! Document 01, "Checked by hand", last part: the printing program.

use crate::rates::symbol_count;
use crate::settings::Settings;
use crate::sig::sig_write;

/// What the printing program writes to standard output for this standard input.
///
/// At most 65,536 bytes are read; more gives the header and `too long`. Every
/// line put out, the last included, ends with a line feed.
pub fn listing(input: &[u8]) -> Vec<u8> {
    let mut text = String::from("mcs width length symbols htsig\n");
    if input.len() > 65_536 {
        text.push_str("too long\n");
        return text.into_bytes();
    }
    for line in lines(input) {
        text.push_str(&answer(&line));
        text.push('\n');
    }
    text.into_bytes()
}

/// The lines, each ended by a line feed or the end. An empty rest at the end is
/// no line; an empty line before that is one.
fn lines(input: &[u8]) -> Vec<Vec<u8>> {
    let mut lines = Vec::new();
    let mut line = Vec::new();
    for byte in input {
        if *byte == b'\n' {
            lines.push(line);
            line = Vec::new();
        } else {
            line.push(*byte);
        }
    }
    if !line.is_empty() {
        lines.push(line);
    }
    lines
}

/// What is printed for one line, without its line feed.
fn answer(line: &[u8]) -> String {
    let Some((mcs, width, length)) = three_numbers(line) else {
        return String::from("malformed");
    };
    // Format is 0, seed 1; smoothing and not sounding are 1, other flags 0.
    let s = Settings {
        width,
        mcs,
        format: 0,
        length,
        seed: 1,
        smoothing: true,
        not_sounding: true,
        aggregation: false,
        short_guard: false,
    };
    let mut sig = [0; 6];
    let symbols = match symbol_count(&s) {
        Ok(symbols) => symbols,
        Err(no) => return format!("{mcs} {width} {length} refused {no}"),
    };
    if let Err(no) = sig_write(&s, &mut sig) {
        return format!("{mcs} {width} {length} refused {no}");
    }
    let mut text = format!("{mcs} {width} {length} {symbols} ");
    for byte in sig {
        text.push_str(&format!("{byte:02X}"));
    }
    text
}

/// MCS, width, length: three numbers of one to five digits, one space between.
fn three_numbers(line: &[u8]) -> Option<(u32, u32, u32)> {
    let mut parts = line.split(|byte| *byte == b' ');
    let mcs = number(parts.next()?)?;
    let width = number(parts.next()?)?;
    let length = number(parts.next()?)?;
    match parts.next() {
        None => Some((mcs, width, length)),
        Some(_) => None,
    }
}

/// One to five ASCII digits, leading zeros counted.
fn number(digits: &[u8]) -> Option<u32> {
    if digits.is_empty() || digits.len() > 5 {
        return None;
    }
    let mut value = 0;
    for digit in digits {
        if !digit.is_ascii_digit() {
            return None;
        }
        value = 10 * value + u32::from(digit - b'0');
    }
    Some(value)
}

#[cfg(test)]
mod tests {
    use super::*;

    const HEADER: &str = "mcs width length symbols htsig\n";

    /// The listing without its header.
    fn printed(input: &[u8]) -> String {
        let text = String::from_utf8(listing(input)).unwrap();
        String::from(text.strip_prefix(HEADER).unwrap())
    }

    #[test]
    fn printing_example_byte_for_byte() {
        let want = b"mcs width length symbols htsig\n\
            15 40 100 1 8F6400075400\n\
            0 20 1 2 000100075000\n\
            32 20 1 refused 2\n";
        assert_eq!(listing(b"15 40 100\n0 20 1\n32 20 1\n"), want);
        // The end ends the last line as a line feed does.
        assert_eq!(listing(b"15 40 100\n0 20 1\n32 20 1"), want);
    }

    #[test]
    fn refusals_come_by_number_not_by_column() {
        assert_eq!(printed(b"32 21 1"), "32 21 1 refused 1\n");
        assert_eq!(printed(b"32 21 0"), "32 21 0 refused 1\n");
        assert_eq!(printed(b"32 40 0"), "32 40 0 refused 2\n");
        assert_eq!(printed(b"31 40 0"), "31 40 0 refused 4\n");
        assert_eq!(printed(b"31 40 65536"), "31 40 65536 refused 4\n");
    }

    #[test]
    fn numbers_do_not_wrap() {
        assert_eq!(printed(b"0 276 1"), "0 276 1 refused 1\n");
        assert_eq!(printed(b"0 65556 1"), "0 65556 1 refused 1\n");
        assert_eq!(printed(b"256 20 1"), "256 20 1 refused 2\n");
        assert_eq!(printed(b"65536 20 1"), "65536 20 1 refused 2\n");
        assert_eq!(printed(b"0 20 65537"), "0 20 65537 refused 4\n");
        let nines = "99999 99999 99999";
        assert_eq!(printed(nines.as_bytes()), format!("{nines} refused 1\n"));
    }

    #[test]
    fn one_to_five_digits_count_leading_zeros() {
        assert_eq!(printed(b"00000 00020 00001"), "0 20 1 2 000100075000\n");
        assert_eq!(printed(b"0 20 000001"), "malformed\n");
        assert_eq!(printed(b"000000 20 1"), "malformed\n");
        assert_eq!(printed(b"0 20 100000"), "malformed\n");
        assert_eq!(printed(b"00 0000 000"), "0 0 0 refused 1\n");
    }

    #[test]
    fn any_other_line_is_malformed() {
        let cases: [&[u8]; 23] = [
            b"0 20 1\r",
            b"\r",
            b"0\t20\t1",
            b"0 20\t1",
            b"+0 20 1",
            b"-1 20 1",
            b" 0 20 1",
            b"0 20 1 ",
            b"0  20 1",
            b"0 20  1",
            b"0 20 1 1",
            b"0 20",
            b"0 20 ",
            b"0",
            b" ",
            b"  ",
            b"0 20 1\0",
            b"\0",
            b"0 20 1.",
            b"0 20 0x1",
            b"0,20,1",
            // Digits of other scripts, and bytes that are no text.
            "0 20 \u{661}".as_bytes(),
            b"0 20 \xFF",
        ];
        for line in cases {
            assert_eq!(printed(line), "malformed\n", "{line:?}");
        }
    }

    #[test]
    fn every_byte_that_is_no_digit_makes_a_line_malformed() {
        for byte in 0..=255u8 {
            let line = [b'0', b' ', b'2', b'0', b' ', byte];
            let want = match byte {
                b'\n' => "malformed\n",
                b'0' => "0 20 0 refused 4\n",
                b'1'..=b'9' => continue,
                _ => "malformed\n",
            };
            assert_eq!(printed(&line), want, "byte {byte}");
        }
    }

    #[test]
    fn empty_lines_and_the_empty_rest() {
        assert_eq!(listing(b""), HEADER.as_bytes());
        assert_eq!(printed(b"\n"), "malformed\n");
        assert_eq!(printed(b"\n\n"), "malformed\nmalformed\n");
        assert_eq!(
            printed(b"\n0 20 1\n\n"),
            "malformed\n0 20 1 2 000100075000\nmalformed\n"
        );
    }

    #[test]
    fn a_malformed_line_does_not_stop_the_program() {
        let want = "malformed\n0 20 1 2 000100075000\nmalformed\n32 20 1 refused 2\n";
        assert_eq!(printed(b"x\n0 20 1\ny\n32 20 1"), want);
    }

    /// The six bytes in capitals, straight from the signal write.
    fn sig_text(mcs: u32, width: u32, length: u32) -> String {
        let s = Settings {
            width,
            mcs,
            format: 0,
            length,
            seed: 1,
            smoothing: true,
            not_sounding: true,
            aggregation: false,
            short_guard: false,
        };
        let mut sig = [0; 6];
        sig_write(&s, &mut sig).unwrap();
        sig.iter().map(|byte| format!("{byte:02X}")).collect()
    }

    #[test]
    fn exactly_65536_bytes_are_read() {
        let input = vec![b'\n'; 65_536];
        assert_eq!(printed(&input), "malformed\n".repeat(65_536));
        let input = vec![b'1'; 65_536];
        assert_eq!(printed(&input), "malformed\n");
    }

    #[test]
    fn bytes_past_65536_give_too_long() {
        for count in [65_537, 65_538, 200_000] {
            for byte in [b'\n', b'1', 0] {
                assert_eq!(printed(&vec![byte; count]), "too long\n");
            }
        }
        let mut input = b"0 20 1\n".to_vec();
        input.resize(65_537, b'\n');
        assert_eq!(printed(&input), "too long\n");
    }

    #[test]
    fn the_longest_counts_fill_the_input() {
        let line = b"0 20 65535\n";
        let input = line.repeat(65_536 / line.len());
        let sig = sig_text(0, 20, 65_535);
        let want = format!("0 20 65535 20166 {sig}\n").repeat(65_536 / line.len());
        assert_eq!(printed(&input), want);
    }
}
