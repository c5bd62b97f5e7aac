//! Runs of the program over whole scripts.
use crate::{Error, Follower, Json, Report};
use std::fmt::Display;
use std::io::Write;
use std::path::Path;
use std::process::{Command, Output, Stdio};
use std::{ffi::OsString, io, thread};

/// Starts the program for each call. Scripts are texts, or a [`Table`](crate::Table).
#[derive(Clone, Debug)]
pub struct Planner {
    pub(crate) program: OsString,
    pub(crate) workers: u8,
    pub(crate) has_labels: bool,
}

/// A verdict on a certificate.
#[derive(Clone, Debug, PartialEq, Eq)]
pub enum Verdict {
    /// Its updates are the plan.
    Yes,
    /// The first reason against it, as `601 SourceLabel 5`.
    No(String),
}

impl Verdict {
    fn against(value: &Json) -> Result<Verdict, Error> {
        let place = |place: &Json| match place {
            Json::Number(place) => Ok(format!(" {place}")),
            _ => Err(Error::Unreadable("a height or an index is no number".to_owned())),
        };
        let places = value.array("at", place)?.concat();
        Ok(Verdict::No(format!("{} {}{places}", value.number("number")?, value.text("name")?)))
    }
}

impl Planner {
    /// By the program of this path, or of this name on the path.
    pub fn new(program: impl Into<OsString>) -> Planner {
        Planner { program: program.into(), workers: 0, has_labels: true }
    }

    /// By so many threads, 1 to 64, or by one with 0. The answers stay the same.
    #[must_use]
    pub fn with_workers(self, workers: u8) -> Planner {
        Planner { workers, ..self }
    }

    /// With no labels in the answers of followers: where a chain has thousands of headers, they are most of an answer.
    #[must_use]
    pub fn without_labels(self) -> Planner {
        Planner { has_labels: false, ..self }
    }

    /// The report of a script.
    pub fn plan(&self, script: impl Display) -> Result<Report, Error> {
        let mut run = self.command(if self.workers > 0 { "run" } else { "plan" });
        Report::read(&written(self.add_workers(run.args(["--json", "-"])), &script.to_string())?)
    }

    /// Why the plans are as they are: the explanation of docs/FORMATS.md.
    pub fn explain(&self, script: impl Display) -> Result<Json, Error> {
        Json::read(&written(self.command("explain").args(["--json", "-"]), &script.to_string())?)
    }

    /// The verdict on a certificate for a script.
    pub fn certify(&self, script: impl Display, certificate: impl Display) -> Result<Verdict, Error> {
        let both = format!("{}{certificate}", document(script)?);
        let output = run(self.command("certify").args(["--json", "-"]), &both)?;
        match output.status.code() {
            Some(0) => Ok(Verdict::Yes),
            Some(3) => Verdict::against(&Json::read(&text(&output.stdout))?),
            status => Err(Error::of(status, &text(&output.stdout), &text(&output.stderr))),
        }
    }

    /// Starts a process that answers turns as they come, of a setup: a script without turns. With a journal each turn
    /// is on the disk before its answer, and a journal that is there is gone on with.
    pub fn follow(&self, setup: impl Display, journal: Option<&Path>) -> Result<Follower, Error> {
        Follower::new(self.clone(), setup.to_string(), journal.map(Path::to_owned))
    }

    /// The name of the program and its version, as `ibcplan 0.1.0`.
    pub fn version(&self) -> Result<String, Error> {
        Ok(written(&mut self.command("--version"), "")?.trim_end().to_owned())
    }

    pub(crate) fn command(&self, name: &str) -> Command {
        let mut command = Command::new(&self.program);
        command.arg(name);
        command
    }

    pub(crate) fn add_workers<'a>(&self, command: &'a mut Command) -> &'a mut Command {
        if self.workers > 0 {
            command.arg("--workers").arg(self.workers.to_string());
        }
        command
    }
}

/// What a run writes that ends well.
fn written(command: &mut Command, input: &str) -> Result<String, Error> {
    let output = run(command, input)?;
    if output.status.success() {
        Ok(text(&output.stdout))
    } else {
        Err(Error::of(output.status.code(), &text(&output.stdout), &text(&output.stderr)))
    }
}

fn run(command: &mut Command, input: &str) -> io::Result<Output> {
    let mut child = command.stdin(Stdio::piped()).stdout(Stdio::piped()).stderr(Stdio::piped()).spawn()?;
    let to = child.stdin.take();
    thread::scope(|scope| {
        // by another thread, since the program may write before it has read all, or may read nothing
        scope.spawn(move || to.map(|mut to| to.write_all(input.as_bytes())));
        child.wait_with_output()
    })
}

/// A text as the program reads it before others on standard input: a line `---` ends it.
pub(crate) fn document(text: impl Display) -> Result<String, Error> {
    let document = format!("{text}\n---\n");
    let ends = document.split('\n').filter(|line| line.strip_suffix('\r').unwrap_or(line) == "---").count();
    if ends > 1 {
        return Err(Error::Misused("a line of the text is ---, which would end it".to_owned()));
    }
    Ok(document)
}

pub(crate) fn text(bytes: &[u8]) -> String {
    String::from_utf8_lossy(bytes).into_owned()
}
