//! Why there is no answer.
use crate::Json;
use std::{fmt, io};

/// A fault of a text: the same text fails again.
#[derive(Clone, Debug, PartialEq, Eq)]
pub struct Fault {
    /// Its number, as 1011.
    pub number: u64,
    /// Its name, as `BadTime`.
    pub name: String,
    /// Its place, as `turn[0].from`; of a turn that `follow` was given as `from`.
    pub path: String,
    /// What belongs there, for a person; nothing of a turn.
    pub advice: String,
}

/// Why there is no answer.
#[derive(Debug)]
#[non_exhaustive]
pub enum Error {
    /// A text has a fault: mend it. A follower goes on as if it had not been given the turn.
    Fault(Fault),
    /// The command line is wrong; or a journal is another one, damaged, or in use. What was said of it.
    Misused(String),
    /// Memory, a file or the process failed: the same call may succeed later. A follower has ended: restart it.
    Failed {
        /// The exit status, or none after a signal.
        status: Option<i32>,
        /// What was said of it, for a person.
        said: String,
    },
    /// The program answered what this crate doesn't read.
    Unreadable(String),
    /// The program can't be started, or no file can be made for it.
    Io(io::Error),
}

impl Error {
    /// The error that an exit status, the fault on standard output and standard error tell.
    pub(crate) fn of(status: Option<i32>, output: &str, said: &str) -> Error {
        let said = said.trim_end();
        match status {
            Some(1) => match Json::read(output).and_then(|fault| Fault::of(&fault)) {
                Ok(fault) => Error::Fault(fault.advised_by(said)),
                Err(_) => Error::Misused(said.to_owned()),
            },
            Some(2) => Error::Misused(said.to_owned()),
            _ => Error::Failed { status, said: said.to_owned() },
        }
    }
}

impl Fault {
    /// The event of the turn, from 0, that the fault is in: without it the turn may be right.
    pub fn event(&self) -> Option<usize> {
        self.path.strip_prefix("event[")?.split_once(']')?.0.parse().ok()
    }

    /// The fault of an object of JSON.
    pub(crate) fn of(value: &Json) -> Result<Fault, Error> {
        let (number, name, path) = (value.number("fault")?, value.text("name")?, value.text("path")?);
        Ok(Fault { number, name, path, advice: String::new() })
    }

    /// The fault with what standard error says behind its line.
    fn advised_by(self, said: &str) -> Fault {
        let advice = said.split_once(&format!("{self}\n")).map_or("", |(_, advice)| advice).to_owned();
        Fault { advice, ..self }
    }
}

impl fmt::Display for Fault {
    fn fmt(&self, to: &mut fmt::Formatter<'_>) -> fmt::Result {
        write!(to, "fault {} {} at {}", self.number, self.name, self.path)
    }
}

impl fmt::Display for Error {
    fn fmt(&self, to: &mut fmt::Formatter<'_>) -> fmt::Result {
        match self {
            Error::Fault(fault) => fault.fmt(to),
            Error::Misused(said) => write!(to, "ibcplan was called wrongly: {said}"),
            Error::Failed { status: Some(status), said } => write!(to, "ibcplan failed with status {status}: {said}"),
            Error::Failed { status: None, said } => write!(to, "ibcplan was killed: {said}"),
            Error::Unreadable(text) => write!(to, "ibcplan wrote what isn't read here: {text}"),
            Error::Io(error) => write!(to, "ibcplan can't be started: {error}"),
        }
    }
}

impl std::error::Error for Fault {}

impl std::error::Error for Error {
    fn source(&self) -> Option<&(dyn std::error::Error + 'static)> {
        match self {
            Error::Fault(fault) => Some(fault),
            Error::Io(error) => Some(error),
            _ => None,
        }
    }
}

impl From<io::Error> for Error {
    fn from(error: io::Error) -> Error {
        Error::Io(error)
    }
}
