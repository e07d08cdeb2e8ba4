//! `searchroom draw`: a question's tree as an SVG picture. Each condition is a row; groups are boxes around rows.

use std::fmt::Write as _;
use std::io::Write;
use std::path::Path;

use crate::failure::Failure;
use crate::folder::{Folder, output};
use crate::found::{Found, run_without_tally};
use crate::notation::Condition;
use crate::ours;
use crate::question::{Group, Question};
use crate::replace::{Access, Replacement};
use crate::request::Request;
use crate::show::{counted, shown_path};
use crate::words::Draw;

pub fn draw(draw: &Draw, out: &mut dyn Write) -> Result<(), Failure> {
    let request = Request::read(&draw.asked)?;
    let new_picture = begin(draw)?;
    let found = run_without_tally(&request.folder, &request.question, &request.order)?;
    let picture = Picture::new(&request, &found).svg();
    let Some(mut new_picture) = new_picture else { return Ok(out.write_all(picture.as_bytes())?) };
    new_picture.write(picture.as_bytes())?;
    new_picture.finish()?;
    let conditions = counted(request.question.conditions().len(), "condition", "conditions");
    let groups = counted(request.question.groups.len(), "group", "groups");
    Ok(writeln!(out, "{}: {conditions}, {groups}", shown_path(&draw.output))?)
}

/// Begins to replace the picture's file; none where it goes to standard output.
fn begin(draw: &Draw) -> Result<Option<Replacement>, Failure> {
    if draw.output == Path::new("-") {
        return Ok(None);
    }
    let new_picture = Replacement::begin(output(&draw.asked.folder, &draw.output)?, Access::Usual)?;
    if !draw.force {
        new_picture.refuse_others(ours::PICTURE.as_bytes(), "a picture of the desk's")?;
    }
    Ok(Some(new_picture))
}

// All lengths are in pixels.
const MARGIN: f64 = 16.0;
const ROW: f64 = 26.0;
/// The head: two lines of what was found, and one that names the columns.
const HEAD: f64 = 92.0;
/// The strip of a group with its word.
const STRIP: f64 = 44.0;
/// The width of a letter; the font has all letters alike.
const LETTER: f64 = 7.9;
const NUMBER: f64 = 34.0;
const TURN: f64 = 56.0;
const BAR: f64 = 220.0;
const SHARE: f64 = 200.0;
/// The most letters that a condition is shown with, and a column's name in it; all of them stand in its title.
const SHOWN: usize = 64;
const SHOWN_NAME: usize = 24;

const STYLE: &str = "\
text { font: 13px 'DejaVu Sans Mono', Menlo, Consolas, monospace; fill: #1a202c; }
.head { font-weight: bold; font-size: 15px; }
.small { fill: #4a5568; }
.word { fill: #ffffff; font-weight: bold; text-anchor: middle; }
.right { text-anchor: end; }
.track { fill: #cbd5e0; }
.looks { fill: #2b6cb0; }
.all { fill: #e6f0fc; }
.any { fill: #fdf2e2; }
.strip-all { fill: #2c5282; }
.strip-any { fill: #9c4221; }
";

struct Picture<'a> {
    folder: &'a Folder,
    question: &'a Question,
    order: &'a [u8],
    found: &'a Found,
    /// The conditions, as they are shown.
    texts: Vec<String>,
    /// Where the conditions begin, right of the strips of all groups.
    conditions_at: f64,
    turn_at: f64,
    bar_at: f64,
    width: f64,
}

impl<'a> Picture<'a> {
    fn new(request: &'a Request, found: &'a Found) -> Picture<'a> {
        let Request { folder, question, order } = request;
        let texts: Vec<String> = question.conditions().iter().map(|condition| shortened(folder, condition)).collect();
        let widest = texts.iter().map(|text| text.chars().count()).max();
        let strips = question.groups.iter().map(|group| group.depth + 1).max().unwrap_or_default();
        let conditions_at = MARGIN + STRIP * strips as f64 + 8.0;
        let turn_at = conditions_at + NUMBER + LETTER * widest.unwrap_or_default().max(9) as f64 + TURN;
        let bar_at = turn_at + 20.0;
        let width = bar_at + BAR + SHARE + MARGIN;
        Picture { folder, question, order, found, texts, conditions_at, turn_at, bar_at, width }
    }

    fn svg(&self) -> String {
        let height = HEAD + ROW * self.question.conditions().len() as f64 + MARGIN;
        let width = self.width;
        let mut svg = format!(
            "{}width=\"{width:.0}\" height=\"{height:.0}\" \
             viewBox=\"0 0 {width:.0} {height:.0}\" role=\"img\">\n<title>{}</title>\n<style>\n{STYLE}</style>\n\
             <rect width=\"100%\" height=\"100%\" fill=\"#ffffff\"/>\n",
            ours::PICTURE,
            xml(&self.question.written.shown(&self.folder.names())),
        );
        self.head(&mut svg);
        for (number, group) in self.question.groups.iter().enumerate() {
            self.group(number, group, &mut svg);
        }
        for number in 0..self.question.conditions().len() {
            self.condition(number, &mut svg);
        }
        svg.push_str("</svg>\n");
        svg
    }

    /// What was found, and the heads of the columns.
    fn head(&self, svg: &mut String) {
        let Picture { folder, found, .. } = self;
        text(svg, "head", MARGIN, 28.0, &found.listing(&folder.catalogue));
        text(svg, "small", MARGIN, 50.0, &found.looking(&folder.catalogue));
        text(svg, "small", self.conditions_at, 80.0, "condition");
        text(svg, "small right", self.turn_at, 80.0, "turn");
        let shares = format!("looks, of {}", counted(folder.catalogue.present(), "entry", "entries"));
        text(svg, "small", self.bar_at, 80.0, &shares);
    }

    fn group(&self, number: usize, group: &Group, svg: &mut String) {
        let word = group.kind.word();
        let x = MARGIN + STRIP * group.depth as f64;
        // A gap of two pixels tells groups apart that stand below each other.
        let (y, height) = (HEAD + ROW * group.conditions.start as f64 + 1.0, ROW * group.conditions.len() as f64 - 2.0);
        let boxed = |class: &str, width: f64| {
            format!(
                "<rect class=\"{class}\" x=\"{x:.1}\" y=\"{y:.1}\" width=\"{width:.1}\" height=\"{height:.1}\" rx=\"3\"/>\n"
            )
        };
        let _ = writeln!(svg, "<g><title>group {number}, {word} of</title>");
        svg.push_str(&boxed(word, self.width - MARGIN - x));
        svg.push_str(&boxed(&format!("strip-{word}"), STRIP - 6.0));
        text(svg, "word", x + (STRIP - 6.0) / 2.0, y + height / 2.0 + 4.5, word);
        svg.push_str("</g>\n");
    }

    fn condition(&self, number: usize, svg: &mut String) {
        let whole = self.question.conditions()[number].shown(&self.folder.names());
        let y = HEAD + ROW * number as f64;
        let base = y + ROW / 2.0 + 4.5;
        let _ = writeln!(svg, "<g><title>{}</title>", xml(&whole));
        text(svg, "small", self.conditions_at, base, &number.to_string());
        text(svg, "condition", self.conditions_at + NUMBER, base, &self.texts[number]);
        let turn = self.order.iter().position(|&other| usize::from(other) == number);
        let turn = turn.expect("an accepted order holds every condition") + 1;
        text(svg, "small right", self.turn_at, base, &turn.to_string());
        let (looks, entries) = (self.found.looks[number], self.folder.catalogue.present());
        for (class, width) in [("track", BAR), ("looks", BAR * looks as f64 / entries.max(1) as f64)] {
            let (x, y, height) = (self.bar_at, y + 6.0, ROW - 12.0);
            let _ = writeln!(
                svg,
                "<rect class=\"{class}\" x=\"{x:.1}\" y=\"{y:.1}\" width=\"{width:.2}\" height=\"{height:.1}\"/>"
            );
        }
        let share = format!("{looks} of {entries} ({})", percent(looks, entries));
        text(svg, "share", self.bar_at + BAR + 8.0, base, &share);
        svg.push_str("</g>\n");
    }
}

/// A condition as it is shown: a long name is cut before the condition is.
fn shortened(folder: &Folder, condition: &Condition) -> String {
    let names: Vec<String> = folder.names().into_iter().map(|name| cut(name, SHOWN_NAME)).collect();
    let names: Vec<&str> = names.iter().map(String::as_str).collect();
    cut(&condition.shown(&names), SHOWN)
}

/// At most so many letters of a text.
fn cut(text: &str, most: usize) -> String {
    let is_long = text.chars().count() > most;
    if is_long { text.chars().take(most - 1).chain(['…']).collect() } else { text.to_owned() }
}

fn text(svg: &mut String, class: &str, x: f64, y: f64, content: &str) {
    let _ = writeln!(svg, "<text class=\"{class}\" x=\"{x:.1}\" y=\"{y:.1}\">{}</text>", xml(content));
}

/// A share in whole percent; none and all are said only where it is none or all.
fn percent(part: usize, whole: usize) -> String {
    let rounded = (100 * part + whole / 2) / whole.max(1);
    match rounded {
        0 if part > 0 => "under 1%".to_owned(),
        100 if part < whole => "over 99%".to_owned(),
        _ => format!("{rounded}%"),
    }
}

/// A text as XML holds it.
fn xml(text: &str) -> String {
    text.chars().fold(String::new(), |mut xml, letter| {
        match letter {
            '&' => xml.push_str("&amp;"),
            '<' => xml.push_str("&lt;"),
            '>' => xml.push_str("&gt;"),
            // XML has no place for these; control characters never come here as they are.
            '\u{FFFE}' | '\u{FFFF}' => xml.push('\u{FFFD}'),
            _ => xml.push(letter),
        }
        xml
    })
}
