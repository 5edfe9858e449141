//! Answers of several lines, in one of three forms: lines of words, JSON (a list of
//! objects, one a line), or CSV (a line of names first).

use std::io::{self, BufWriter, StdoutLock, Write};

use crate::fault::Fault;
use crate::line::Form;

/// What stands under one name of an answer.
pub enum Cell {
    Number(String),
    Text(String),
    None,
}

impl Cell {
    pub fn number(number: impl ToString) -> Cell {
        Cell::Number(number.to_string())
    }

    fn json(&self) -> String {
        match self {
            Cell::Number(number) => number.clone(),
            Cell::Text(text) => quoted(text),
            Cell::None => "null".into(),
        }
    }

    fn csv(&self) -> String {
        match self {
            Cell::Number(text) | Cell::Text(text) if text.contains([',', '"', '\n']) => {
                format!("\"{}\"", text.replace('"', "\"\""))
            }
            Cell::Number(text) | Cell::Text(text) => text.clone(),
            Cell::None => String::new(),
        }
    }
}

fn quoted(text: &str) -> String {
    let mut quoted = String::from("\"");
    for letter in text.chars() {
        match letter {
            '"' | '\\' => quoted.extend(['\\', letter]),
            letter if letter < ' ' => quoted += &format!("\\u{:04x}", letter as u32),
            letter => quoted.push(letter),
        }
    }
    quoted + "\""
}

/// Rows on their way to standard output.
pub struct Rows {
    form: Form,
    names: &'static [&'static str],
    out: BufWriter<StdoutLock<'static>>,
    first: bool,
}

impl Rows {
    pub fn new(form: Form, names: &'static [&'static str]) -> Result<Rows, Fault> {
        let mut rows = Rows {
            form,
            names,
            out: BufWriter::new(io::stdout().lock()),
            first: true,
        };
        if form == Form::Csv {
            rows.put(&(names.join(",") + "\n"))?;
        }
        Ok(rows)
    }

    fn put(&mut self, text: &str) -> Result<(), Fault> {
        let put = self.out.write_all(text.as_bytes());
        put.map_err(|error| Fault::output(&error))
    }

    /// One row: its plain line, and its cells for the other forms.
    pub fn row(&mut self, plain: &str, cells: &[Cell]) -> Result<(), Fault> {
        let line = match self.form {
            Form::Plain => format!("{plain}\n"),
            Form::Json => {
                let named = self.names.iter().zip(cells);
                let pairs: Vec<String> = named
                    .map(|(name, cell)| format!("{}:{}", quoted(name), cell.json()))
                    .collect();
                let before = if self.first { "[\n" } else { ",\n" };
                format!("{before}{{{}}}", pairs.join(","))
            }
            Form::Csv => {
                let cells: Vec<String> = cells.iter().map(Cell::csv).collect();
                format!("{}\n", cells.join(","))
            }
        };
        self.first = false;
        self.put(&line)
    }

    pub fn end(mut self) -> Result<(), Fault> {
        match (self.form, self.first) {
            (Form::Json, true) => self.put("[]\n")?,
            (Form::Json, false) => self.put("\n]\n")?,
            _ => {}
        }
        self.out.flush().map_err(|error| Fault::output(&error))
    }
}
