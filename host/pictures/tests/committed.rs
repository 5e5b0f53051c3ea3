//! The pictures in `docs/pictures` are those that are drawn now.

use std::fs;
use std::path::PathBuf;

fn committed() -> PathBuf {
    PathBuf::from(env!("CARGO_MANIFEST_DIR")).join("../../docs/pictures")
}

const AGAIN: &str = "write them again: cargo run --manifest-path host/Cargo.toml --release --offline -p pictures -- docs/pictures";

#[test]
fn each_file_is_drawn_byte_for_byte() {
    for picture in pictures::draw_all().unwrap() {
        let file = fs::read(committed().join(picture.file));
        let same = file.is_ok_and(|bytes| bytes == picture.svg.as_bytes());
        assert!(same, "docs/pictures/{} is another; {AGAIN}", picture.file);
    }
}

#[test]
fn no_other_file_stands_beside_them() {
    let mut there: Vec<String> = fs::read_dir(committed())
        .unwrap()
        .map(|entry| entry.unwrap().file_name().into_string().unwrap())
        .collect();
    there.sort();
    let drawn = pictures::draw_all().unwrap().map(|picture| picture.file);
    assert_eq!(there, drawn);
}

/// What a page needs that is shown by an `img` tag: its size, a ground of its own, and nothing from elsewhere.
#[test]
fn each_picture_stands_by_itself() {
    for picture in pictures::draw_all().unwrap() {
        let svg = &picture.svg;
        let head = svg.lines().next().unwrap();
        for attribute in [" width=\"", " height=\"", " viewBox=\"0 0 "] {
            assert!(head.contains(attribute), "{}", picture.file);
        }
        assert!(svg.contains("fill=\"white\"/>"));
        assert_eq!(svg.matches("http").count(), 1, "only the name space");
        for element in ["<script", "<style", "<image", "href"] {
            assert!(!svg.contains(element), "{}: {element}", picture.file);
        }
        assert_eq!(svg.matches("<g ").count(), svg.matches("</g>").count());
    }
}

/// By a wide font's mean width of a letter, 0.55 of its size: no words leave the page.
#[test]
fn each_text_stands_on_its_page() {
    for picture in pictures::draw_all().unwrap() {
        let head = picture.svg.lines().next().unwrap();
        let page = ["width", "height"].map(|name| number(head, name));
        let texts = picture.svg.lines().filter(|l| l.starts_with("<text x="));
        for text in texts.clone() {
            let words = text.split(['<', '>']).nth(2).unwrap();
            let size = number(text, "font-size");
            let width = 0.55 * size * words.chars().count() as f64;
            let [x, y] = ["x", "y"].map(|name| number(text, name));
            let left = match attribute(text, "text-anchor") {
                "start" => x,
                "middle" => x - width / 2.0,
                _ => x - width,
            };
            assert!(
                left >= 0.0 && left + width <= page[0],
                "{}: {words}",
                picture.file
            );
            assert!(
                y >= size && y + size / 3.0 <= page[1],
                "{}: {words}",
                picture.file
            );
        }
        assert!(texts.count() > 0, "{}", picture.file);
    }
}

fn attribute<'a>(element: &'a str, name: &str) -> &'a str {
    let (_, value) = element.split_once(&format!(" {name}=\"")).unwrap();
    value.split('"').next().unwrap()
}

fn number(element: &str, name: &str) -> f64 {
    attribute(element, name).parse().unwrap()
}
