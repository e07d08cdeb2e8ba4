//! `searchroom ask`: the entries found, and the looks.

use std::io::Write;
use std::path::Path;

use searchroom::{Tally, copy_of};
use serde_json::{Map, Value, json};

use crate::catalogue::Column;
use crate::failure::Failure;
use crate::folder::{Folder, output};
use crate::found::{Found, run};
use crate::ours;
use crate::replace::{Access, Replacement};
use crate::request::Request;
use crate::show::{Paint, shown, shown_path};
use crate::target::Target;
use crate::words::Ask;

pub fn ask(ask: &Ask, paint: Paint, out: &mut dyn Write) -> Result<(), Failure> {
    let request = Request::read(&ask.asked)?;
    if ask.strict {
        return Ok(writeln!(out, "{}", request.question.strict)?);
    }
    let register = Register::make(ask, &request)?;
    if ask.json { Ok(writeln!(out, "{}", register.json())?) } else { register.print(paint, out) }
}

/// What came of a question that was run and registered.
struct Register<'a> {
    ask: &'a Ask,
    request: &'a Request,
    found: Found,
    /// What the tally's file says, if one is kept.
    tally: Option<Kept>,
    /// The bytes of the copy that was written.
    copied: Option<usize>,
}

struct Kept {
    /// The reader's number.
    number: u64,
    /// There was no such file.
    is_new: bool,
}

impl<'a> Register<'a> {
    /// Runs the question. The files are put in their places when nothing can refuse any more.
    fn make(ask: &'a Ask, request: &'a Request) -> Result<Register<'a>, Failure> {
        let Request { folder, question, order } = request;
        let (tally_file, copy_file) = outputs(ask)?;
        let begin = |file| Replacement::begin(file, Access::Private);
        // The tally comes last, because others wait for it.
        let mut new_copy = copy_file.map(begin).transpose()?;
        if let Some(new_copy) = new_copy.as_ref().filter(|_| !ask.force) {
            new_copy.refuse_others(ours::COPY, "a copy of a register")?;
        }
        let mut new_tally = tally_file.map(begin).transpose()?;
        // One byte too many is enough for the engine to refuse it.
        let before = new_tally.as_ref().map(|file| file.read(Tally::BYTES + 1)).transpose()?.flatten();
        let is_new = before.is_none();
        let mut tally = before.unwrap_or_else(|| Tally::default().bytes().to_vec());
        let found = run(folder, question, order, ask.reader, &mut tally)?;
        let mut copied = None;
        if let Some(new_copy) = &mut new_copy {
            let bytes = copy_of(&folder.bytes, &question.bytes, order)?;
            new_copy.write(&bytes)?;
            copied = Some(bytes.len());
        }
        if let Some(new_tally) = &mut new_tally {
            new_tally.write(&tally)?;
        }
        let number = Tally::try_from(tally.as_slice())?.of(ask.reader).expect("the engine took this reader");
        let tally = new_tally.is_some().then_some(Kept { number, is_new });
        // The sum comes last, because it cannot be made again.
        for file in [new_copy, new_tally].into_iter().flatten() {
            file.finish()?;
        }
        Ok(Register { ask, request, found, tally, copied })
    }

    fn json(&self) -> Value {
        let Request { folder, question, order } = self.request;
        let names = folder.names();
        let condition = |(number, looks): (usize, &usize)| {
            let condition = &question.conditions()[number];
            let (text, strict) = (condition.shown(&names), condition.strict());
            json!({"condition": number, "text": text, "strict": strict, "looks": looks})
        };
        let value = |column: &Column, entry: usize| match column {
            Column::Numbers(numbers) => json!(numbers[entry]),
            Column::Texts(_) => json!(column.value(entry)),
        };
        let listed = |&entry: &usize| {
            let columns = folder.catalogue.columns.iter();
            let values = names.iter().zip(columns).map(|(name, column)| ((*name).to_owned(), value(column, entry)));
            json!({"entry": entry, "values": values.collect::<Map<_, _>>()})
        };
        let mut answer = json!({
            "entries": folder.catalogue.entries,
            "withdrawn": folder.catalogue.withdrawn(),
            "found": self.found.counts.found,
            "looks": self.found.counts.looks,
            "order": order,
            "conditions": self.found.looks.iter().enumerate().map(condition).collect::<Vec<_>>(),
            "listed": self.found.listed.iter().map(listed).collect::<Vec<_>>(),
            "reader": self.ask.reader,
        });
        if let Some(Kept { number, is_new }) = &self.tally {
            answer["tally"] = json!(number);
            answer["tally_is_new"] = json!(is_new);
        }
        answer
    }

    fn print(&self, paint: Paint, out: &mut dyn Write) -> Result<(), Failure> {
        let Register { ask, found, .. } = self;
        let Folder { catalogue, .. } = &self.request.folder;
        writeln!(out, "{}", paint.bold(&found.listing(catalogue)))?;
        if !found.listed.is_empty() {
            writeln!(out)?;
            print_listed(&self.request.folder, &found.listed, paint, out)?;
        }
        writeln!(out)?;
        self.print_looks(paint, out)?;
        if let (Some(Kept { number, is_new }), Some(file)) = (&self.tally, &ask.tally) {
            let new = if *is_new { format!(" ({} is new)", shown_path(file)) } else { String::new() };
            writeln!(out, "tally of reader {}: {number}{new}", ask.reader)?;
        }
        if let (Some(bytes), Some(file)) = (self.copied, &ask.copy) {
            writeln!(out, "copy of the register: {bytes} bytes in {}", shown_path(file))?;
        }
        Ok(())
    }

    fn print_looks(&self, paint: Paint, out: &mut dyn Write) -> Result<(), Failure> {
        let Request { folder, question, .. } = self.request;
        let looks = &self.found.looks;
        writeln!(out, "{}", paint.bold(&self.found.looking(&folder.catalogue)))?;
        let names = folder.names();
        let digits = |number: usize| number.to_string().len();
        let number_wide = digits(looks.len() - 1);
        let looks_wide = digits(looks.iter().copied().max().unwrap_or_default());
        for (number, condition) in question.conditions().iter().enumerate() {
            let (looks, text) = (looks[number], condition.shown(&names));
            writeln!(out, "  condition {number:<number_wide$}  {looks:>looks_wide$}  {text}")?;
        }
        Ok(())
    }
}

/// The files for the tally and the copy.
fn outputs(ask: &Ask) -> Result<(Option<Target>, Option<Target>), Failure> {
    let file = |path: Option<&Path>| path.map(|path| output(&ask.asked.folder, path)).transpose();
    let (tally, copy) = (file(ask.tally.as_deref())?, file(ask.copy.as_deref())?);
    match (&tally, &copy) {
        (Some(tally), Some(copy)) if tally.is_same(copy) => {
            Err(Failure::Desk("--tally and --copy name the same file: name two".to_owned()))
        }
        _ => Ok((tally, copy)),
    }
}

/// A column of the table that people are shown.
struct Shown {
    name: String,
    values: Vec<String>,
    /// Numbers stand to the right.
    to_the_right: bool,
    wide: usize,
}

impl Shown {
    fn new(name: String, values: Vec<String>, to_the_right: bool) -> Shown {
        let wide = values.iter().chain([&name]).map(|text| text.chars().count()).max().unwrap_or_default();
        Shown { name, values, to_the_right, wide }
    }

    fn cell(&self, text: &str) -> String {
        let wide = self.wide;
        if self.to_the_right { format!("{text:>wide$}") } else { format!("{text:<wide$}") }
    }
}

/// The listed entries with their values, as a table.
fn print_listed(folder: &Folder, listed: &[usize], paint: Paint, out: &mut dyn Write) -> Result<(), Failure> {
    let entries = listed.iter().map(usize::to_string).collect();
    let mut columns = vec![Shown::new("entry".to_owned(), entries, true)];
    for (name, column) in folder.names().into_iter().zip(&folder.catalogue.columns) {
        let values = listed.iter().map(|&entry| shown(&column.value(entry).unwrap_or_default())).collect();
        columns.push(Shown::new(shown(name), values, matches!(column, Column::Numbers(_))));
    }
    let line = |cells: Vec<String>| cells.join("  ").trim_end().to_owned();
    let names = columns.iter().map(|column| column.cell(&column.name)).collect();
    writeln!(out, "{}", paint.dim(&line(names)))?;
    for row in 0..listed.len() {
        writeln!(out, "{}", line(columns.iter().map(|column| column.cell(&column.values[row])).collect()))?;
    }
    Ok(())
}
