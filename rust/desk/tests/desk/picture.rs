//! An SVG picture as python3's XML reader finds it.

use std::path::Path;
use std::process::Command;

/// Prints the size, then the titles, texts and boxes, a line each. Fails where the file is no XML.
const READ: &str = r#"
import sys, xml.etree.ElementTree as tree
root = tree.parse(sys.argv[1]).getroot()
space = "{http://www.w3.org/2000/svg}"
assert root.tag == space + "svg", root.tag
out = open(1, "w", encoding="utf-8", newline="\n")
print(root.get("width"), root.get("height"), file=out)
for part in root.iter():
    kind, name = part.tag[len(space):], (part.get("class") or "").replace(" ", ".") or "-"
    words = "".join(part.itertext()).replace("\n", " ")
    if kind == "title":
        print("title", words, file=out)
    if kind == "text":
        print("text", name, part.get("x"), part.get("y"), words, file=out)
    if kind == "rect" and part.get("x") is not None:
        print("rect", name, *(part.get(side) for side in ("x", "y", "width", "height")), file=out)
"#;

/// A letter's width is six tenths of its height, in this font and most like it.
const LETTER: f64 = 13.0 * 0.602;
const HEAD_LETTER: f64 = 15.0 * 0.602;

#[derive(Clone, Debug)]
pub struct Text {
    class: String,
    pub x: f64,
    pub y: f64,
    pub content: String,
}

#[derive(Clone, Debug)]
pub struct Shape {
    pub class: String,
    pub x: f64,
    y: f64,
    pub width: f64,
    height: f64,
}

impl Shape {
    /// Does it stand at this height?
    pub fn spans(&self, y: f64) -> bool {
        self.y <= y && y <= self.y + self.height
    }
}

impl Text {
    /// Where it begins and where it ends.
    fn span(&self) -> (f64, f64) {
        let letter = if self.class == "head" { HEAD_LETTER } else { LETTER };
        let width = letter * self.content.chars().count() as f64;
        let start = match self.class.as_str() {
            "word" => self.x - width / 2.0,
            class if class.contains("right") => self.x - width,
            _ => self.x,
        };
        (start, start + width)
    }
}

pub struct Picture {
    width: f64,
    height: f64,
    pub titles: Vec<String>,
    texts: Vec<Text>,
    pub boxes: Vec<Shape>,
}

fn number(word: &str) -> f64 {
    word.parse().unwrap_or_else(|_| panic!("{word:?} is no number"))
}

impl Picture {
    pub fn read(path: &Path) -> Picture {
        let read = Command::new("python3").args(["-c", READ]).arg(path).output().expect("python3");
        let complaint = String::from_utf8_lossy(&read.stderr);
        assert!(read.status.success(), "{} is no sound SVG: {complaint}", path.display());
        let lines = String::from_utf8(read.stdout).expect("UTF-8");
        let mut lines = lines.split_terminator('\n');
        let (width, height) = lines.next().and_then(|line| line.split_once(' ')).expect("the size");
        let (width, height) = (number(width), number(height));
        let mut picture = Picture { width, height, titles: Vec::new(), texts: Vec::new(), boxes: Vec::new() };
        lines.for_each(|line| picture.take(line));
        picture
    }

    fn take(&mut self, line: &str) {
        let (kind, rest) = line.split_once(' ').expect("a kind");
        if kind == "title" {
            return self.titles.push(rest.to_owned());
        }
        let parts: Vec<&str> = rest.splitn(if kind == "text" { 4 } else { 5 }, ' ').collect();
        let (class, x, y) = (parts[0].to_owned(), number(parts[1]), number(parts[2]));
        if kind == "text" {
            self.texts.push(Text { class, x, y, content: parts[3].to_owned() });
        } else {
            self.boxes.push(Shape { class, x, y, width: number(parts[3]), height: number(parts[4]) });
        }
    }

    /// The texts of a class, as they stand. Turns are the numbers at the right before the bars.
    pub fn texts_of(&self, class: &str) -> Vec<Text> {
        let is_turn = |text: &Text| text.class == "small.right" && text.content != "turn";
        let of_class = |text: &&Text| if class == "turn" { is_turn(text) } else { text.class == class };
        self.texts.iter().filter(of_class).cloned().collect()
    }

    pub fn boxes_of(&self, class: &str) -> Vec<Shape> {
        self.boxes.iter().filter(|shape| shape.class == class).cloned().collect()
    }

    /// Nothing stands outside of the picture.
    pub fn assert_inside(&self, label: &str) {
        for text in &self.texts {
            let (start, end) = text.span();
            let inside = start >= 0.0 && end <= self.width && text.y > 12.0 && text.y < self.height;
            assert!(inside, "{label}: {text:?} in {} by {}", self.width, self.height);
        }
        for shape in &self.boxes {
            let (right, bottom) = (shape.x + shape.width, shape.y + shape.height);
            let inside = shape.x >= 0.0 && shape.y >= 0.0 && right <= self.width && bottom <= self.height;
            assert!(inside && shape.width >= 0.0, "{label}: {shape:?} in {} by {}", self.width, self.height);
        }
    }

    /// No text is written over another.
    pub fn assert_apart(&self, label: &str) {
        for (place, text) in self.texts.iter().enumerate() {
            for other in &self.texts[place + 1..] {
                let beside = (text.y - other.y).abs() >= 13.0;
                let apart = text.span().1 <= other.span().0 || other.span().1 <= text.span().0;
                assert!(beside || apart, "{label}: {text:?} over {other:?}");
            }
        }
    }
}
