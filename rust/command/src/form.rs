//! The form of an answer: words, JSON or a table of commas.

use crate::answer::{with_file, Said, Stop};
use crate::args::Args;
use crate::csv::{self, Columns};
use crate::input::Name;

/// How the answers of a call are written.
#[derive(Clone, Copy, Debug)]
pub enum Form {
    Words,
    Json,
    /// A table with these columns.
    Csv(Columns),
}

impl Form {
    /// The form that a call asks for; `columns` are those of its table.
    pub fn of(args: &Args, columns: Columns) -> Result<Form, Stop> {
        match (args.has("json"), args.has("csv")) {
            (true, true) => Err(Stop::Use("--json and --csv don't go together".to_string())),
            (true, false) => Ok(Form::Json),
            (false, true) => Ok(Form::Csv(columns)),
            (false, false) => Ok(Form::Words),
        }
    }

    pub fn is_words(&self) -> bool {
        matches!(self, Form::Words)
    }

    /// What stands before the first answer: the heads of a table's columns.
    pub fn head(&self) -> String {
        match self {
            Form::Csv(columns) => csv::head(columns),
            _ => String::new(),
        }
    }

    /// One answer of a call that has many. What has no line, a table, stands under its name.
    pub fn among_many(&self, name: &Name, said: &Said) -> String {
        match self {
            Form::Json => format!("{}\n", with_file(name, said)),
            Form::Csv(columns) => csv::rows(columns, &with_file(name, said)),
            Form::Words if said.line.is_empty() => format!("{name}:\n{}", said.words),
            Form::Words => format!("{name}: {}\n", said.line),
        }
    }
}
