//! The printing program against the independent second program.

mod common;

use common::Draw;
use std::io::Write;
use std::path::PathBuf;
use std::process::{Command, Stdio};

/// What the program writes for an input.
fn printed(input: &[u8]) -> Vec<u8> {
    let program = std::env::var_os("HT_LISTING_PROGRAM").map_or_else(
        || PathBuf::from(env!("CARGO_MANIFEST_DIR")).join("../../crates/htsig/out/htsig"),
        PathBuf::from,
    );
    let mut child = Command::new(&program)
        .stdin(Stdio::piped())
        .stdout(Stdio::piped())
        .spawn()
        .unwrap_or_else(|e| panic!("{}: {e}; `rt run` or `rt ci` builds it", program.display()));
    let mut stdin = child.stdin.take().unwrap();
    let bytes = input.to_vec();
    // The program may stop reading before the end of a long input, so a failed write is no fault.
    let feeder = std::thread::spawn(move || {
        let _ = stdin.write_all(&bytes);
    });
    let output = child.wait_with_output().unwrap();
    feeder.join().unwrap();
    assert!(output.status.success());
    output.stdout
}

fn compare(input: &[u8]) {
    let got = printed(input);
    let want = second::listing(input);
    assert!(
        got == want,
        "input {:?}\ngot\n{}\nwant\n{}",
        String::from_utf8_lossy(&input[..input.len().min(300)]),
        String::from_utf8_lossy(&got[..got.len().min(600)]),
        String::from_utf8_lossy(&want[..want.len().min(600)])
    );
}

const EXAMPLE: &[u8] = b"mcs width length symbols htsig\n15 40 100 1 8F6400075400\n0 20 1 2 000100075000\n32 20 1 refused 2\n";

#[test]
fn document_01s_example_byte_for_byte() {
    assert_eq!(printed(b"15 40 100\n0 20 1\n32 20 1\n"), EXAMPLE);
    assert_eq!(printed(b"15 40 100\n0 20 1\n32 20 1"), EXAMPLE);
}

#[test]
fn empty_input_and_empty_lines() {
    assert_eq!(printed(b""), b"mcs width length symbols htsig\n");
    assert_eq!(
        printed(b"\n"),
        b"mcs width length symbols htsig\nmalformed\n"
    );
    for input in [
        &b""[..],
        b"\n",
        b"\n\n",
        b"0 20 1\n\n0 20 1",
        b"0 20 1\n",
        b"0 20 1",
        b" ",
        b"\0",
    ] {
        compare(input);
    }
}

#[test]
fn the_longest_input_and_one_byte_more() {
    let mut input = b"0 20 1\n".repeat(65_536 / 7 + 1);
    input.truncate(65_536);
    compare(&input);
    assert_eq!(
        printed(&input).iter().filter(|b| **b == b'\n').count(),
        1 + 65_536_usize.div_ceil(7)
    );
    input.push(b'\n');
    assert_eq!(input.len(), 65_537);
    assert_eq!(
        printed(&input),
        b"mcs width length symbols htsig\ntoo long\n"
    );
    compare(&input);
    compare(&vec![b'\n'; 65_536]);
    compare(&vec![b'\n'; 65_537]);
    compare(&vec![b'7'; 65_536]);
    compare(&vec![b'7'; 200_000]);
}

#[test]
fn lines_that_are_nearly_right() {
    for line in [
        "000001 20 1",
        "00001 20 1",
        "0 020 1",
        "0 00020 00001",
        "0 20 65535",
        "0 20 65536",
        "0 20 0",
        "0 20 99999",
        "99999 99999 99999",
        "32 21 1",
        "31 40 65535",
        "0 276 1",
        "256 20 1",
        "0 20 65556",
        "0 20",
        "0 20 ",
        "0 20 1 ",
        " 0 20 1",
        "0  20 1",
        "0 20  1",
        "0 20 1 1",
        "0\t20\t1",
        "+0 20 1",
        "-0 20 1",
        "0 20 1\r",
        "0 20 1\0",
        "0,20,1",
        "0 20 1x",
        "x 20 1",
        "0 2o 1",
        "0 20 /",
        "0 20 :",
        "0 20 123456",
        "123456 20 1",
        "0 123456 1",
        "",
        " ",
        "  ",
        "\u{660} 20 1",
    ] {
        compare(line.as_bytes());
        compare(format!("{line}\n15 40 100\n").as_bytes());
    }
}

#[test]
fn every_mcs_and_width() {
    let mut input = String::new();
    for width in [19, 20, 21, 40, 41] {
        for mcs in 0..34 {
            for length in [0, 1, 7, 8, 1500, 65_535, 65_536] {
                input += &format!("{mcs} {width} {length}\n");
            }
        }
    }
    compare(input.as_bytes());
}

#[test]
fn random_texts() {
    let mut draw = Draw::new(5);
    let pieces: [&[u8]; 16] = [
        b"0", b"1", b"20", b"40", b"31", b"32", b"100", b"65535", b"65536", b" ", b" ", b" ",
        b"\n", b"\n", b"\r\n", b"x",
    ];
    for _ in 0..150 {
        let mut input = Vec::new();
        for _ in 0..draw.below(400) {
            match draw.below(8) {
                0..=4 => {
                    let line = format!(
                        "{} {} {}\n",
                        draw.below(40),
                        draw.of(&[20, 40, 20, 40, 30]),
                        draw.below(70_000)
                    );
                    input.extend(line.as_bytes());
                }
                5..=6 => input.extend(draw.of(&pieces)),
                _ => input.push(draw.next() as u8),
            }
        }
        compare(&input);
    }
}
