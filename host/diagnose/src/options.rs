//! What the command is asked for, by its arguments.

use std::ffi::{OsStr, OsString};

use crate::input::Source;
use crate::name::shown;

pub const USAGE: &str = "usage: diagnose [OPTION..] [FILE..]";

/// In a file of its own, since the launcher prints it before anything is built.
pub const HELP: &str = include_str!("help.txt");

pub const VERSION: &str = concat!("diagnose ", env!("CARGO_PKG_VERSION"), "\n");

/// In which form the sheets' reports are printed.
#[derive(Debug, Clone, Copy, PartialEq, Eq)]
pub enum Form {
    /// The proved lines.
    Lines,
    Summary,
    Report,
    /// The sheets themselves.
    Sheet,
}

/// The options that choose a form, of which there may be one.
const FORMS: [(&str, Form); 3] = [
    ("--summary", Form::Summary),
    ("--report", Form::Report),
    ("--sheet", Form::Sheet),
];

pub struct Options {
    pub form: Form,
    pub explain: bool,
    pub csv: bool,
    /// One or more.
    pub sources: Vec<Source>,
}

pub enum Request {
    Help,
    Version,
    Score(Options),
}

/// What the arguments ask for, or what is wrong with them.
pub fn parse(arguments: impl IntoIterator<Item = OsString>) -> Result<Request, String> {
    let mut options = Options {
        form: Form::Lines,
        explain: false,
        csv: false,
        sources: Vec::new(),
    };
    let mut arguments = arguments.into_iter();
    for argument in arguments.by_ref() {
        if !is_option(&argument) {
            options.sources.push(Source::named(argument));
            continue;
        }
        match argument.to_str() {
            Some("--") => break,
            Some("-h" | "--help") => return Ok(Request::Help),
            Some("--version") => return Ok(Request::Version),
            Some("--explain") => options.explain = true,
            Some("--csv") => options.csv = true,
            _ => options.choose_form(&argument)?,
        }
    }
    options.sources.extend(arguments.map(Source::named));
    if options.sources.is_empty() {
        options.sources.push(Source::StandardInput);
    }
    options.checked().map(Request::Score)
}

/// Standard input's name begins as an option does, and is none.
fn is_option(argument: &OsStr) -> bool {
    argument != "-" && argument.as_encoded_bytes().starts_with(b"-")
}

impl Options {
    fn choose_form(&mut self, argument: &OsStr) -> Result<(), String> {
        let Some((name, form)) = FORMS.into_iter().find(|(name, _)| argument == *name) else {
            return Err(format!(
                "there is no option {}; -- ends the options",
                shown(argument)
            ));
        };
        let mut chosen = FORMS.into_iter().filter(|(_, form)| *form == self.form);
        match chosen.next() {
            Some((other, _)) if other != name => {
                Err(format!("{other} and {name} exclude each other"))
            }
            _ => {
                self.form = form;
                Ok(())
            }
        }
    }

    /// Sees to what no argument shows alone.
    fn checked(self) -> Result<Self, String> {
        let count = self.sources.len();
        let standard = self.sources.iter();
        let standard = standard.filter(|it| matches!(it, Source::StandardInput));
        if standard.count() > 1 {
            return Err(String::from("standard input can be read only once"));
        }
        if self.form == Form::Sheet && !self.csv {
            return Err(String::from("--sheet needs --csv"));
        }
        if self.form == Form::Sheet && count > 1 {
            return Err(format!("--sheet takes one file, not {count}"));
        }
        Ok(self)
    }
}
