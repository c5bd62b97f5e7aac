//! A process that answers turns as they come.
use crate::planner::{document, text};
use crate::report::format_of;
use crate::{Error, Json, Planner, Turn};
use std::fmt::Display;
use std::io::{self, BufRead, BufReader, Read, Write};
use std::path::PathBuf;
use std::process::{Child, ChildStderr, ChildStdin, ChildStdout, Stdio};
use std::sync::{Arc, Mutex, MutexGuard, PoisonError};
use std::thread::{self, JoinHandle};

/// So many bytes of standard error are remembered.
const MOST_SAID: usize = 1 << 16;

/// A process that answers turns as they come. It is killed when this goes, which loses no turn of a journal.
#[derive(Debug)]
pub struct Follower {
    planner: Planner,
    setup: String,
    journal: Option<PathBuf>,
    run: Run,
    turns: usize,
    past: Vec<Turn>,
}

/// Kills a follower's process, from any thread; `answer` then fails.
#[derive(Clone, Debug)]
pub struct Stopper(Arc<Mutex<Child>>);

impl Stopper {
    /// Kills the process.
    pub fn stop(&self) -> io::Result<()> {
        locked(&self.0).kill()
    }
}

impl Follower {
    pub(crate) fn new(planner: Planner, setup: String, journal: Option<PathBuf>) -> Result<Follower, Error> {
        let (run, Past { lines, turns }) = Run::new(&planner, &setup, journal.as_ref())?;
        let past = lines.iter().map(|line| Turn::answer(&Json::read(line)?)).collect::<Result<Vec<_>, _>>()?;
        Ok(Follower { planner, setup, journal, run, turns, past })
    }

    /// The answers to the turns that the journal had, since it was begun anew.
    pub fn past(&self) -> &[Turn] {
        &self.past
    }

    /// How many turns were answered, those of the journal, too.
    pub fn turns(&self) -> usize {
        self.turns
    }

    /// The answer to a turn. After [`Error::Fault`] all is as before: mend the turn, and ask again. After another error
    /// the process has ended: [`restart`](Follower::restart).
    pub fn answer(&mut self, turn: impl Display) -> Result<Turn, Error> {
        let answer = Json::read(&self.run.exchange(&document(turn)?)?)?;
        self.turns += usize::from(answer.get("fault").is_none());
        Turn::answer(&answer)
    }

    /// Starts the process again, which ended, by the same journal: the answer to the turn that it ended upon, if the
    /// journal has that turn. Otherwise ask again.
    pub fn restart(&mut self) -> Result<Option<Turn>, Error> {
        if self.journal.is_none() {
            return Err(Error::Misused("without a journal turns are lost: begin another follower".to_owned()));
        }
        self.run.end();
        let (run, Past { lines, turns }) = Run::new(&self.planner, &self.setup, self.journal.as_ref())?;
        let is_taken = turns > self.turns;
        (self.run, self.turns) = (run, turns);
        let last = lines.last().filter(|_| is_taken);
        last.map(|line| Turn::answer(&Json::read(line)?)).transpose()
    }

    /// The answer to a turn, by another process where one ended: with a journal no turn is lost, and none counts twice.
    pub fn answer_or_restart(&mut self, turn: impl Display) -> Result<Turn, Error> {
        match self.answer(&turn) {
            Err(Error::Failed { .. }) => match self.restart()? {
                Some(answer) => Ok(answer),
                None => self.answer(&turn),
            },
            answer => answer,
        }
    }

    /// What kills the process from another thread, as after a timeout.
    pub fn stopper(&self) -> Stopper {
        Stopper(Arc::clone(&self.run.child))
    }

    /// The end of what the process wrote to standard error, for a log.
    pub fn said(&self) -> String {
        text(&locked(&self.run.said))
    }
}

/// The answers to the journal's turns since it was begun anew, and how many turns were answered.
struct Past {
    lines: Vec<String>,
    turns: usize,
}

/// A process and its pipes.
#[derive(Debug)]
struct Run {
    child: Arc<Mutex<Child>>,
    turns: Option<ChildStdin>,
    answers: BufReader<ChildStdout>,
    said: Arc<Mutex<Vec<u8>>>,
    listener: Option<JoinHandle<()>>,
}

impl Run {
    /// Starts the process; the answers to the journal's turns.
    fn new(planner: &Planner, setup: &str, journal: Option<&PathBuf>) -> Result<(Run, Past), Error> {
        let setup = document(setup)?;
        let mut command = planner.command("follow");
        planner.add_workers(&mut command).args(["--json", "-"]);
        if let Some(journal) = journal {
            command.arg("--journal").arg(journal);
        }
        if !planner.has_labels {
            command.arg("--no-labels");
        }
        let mut child = command.stdin(Stdio::piped()).stdout(Stdio::piped()).stderr(Stdio::piped()).spawn()?;
        let (turns, answers, from) = (child.stdin.take(), child.stdout.take(), child.stderr.take());
        let (Some(answers), Some(from)) = (answers, from) else { unreachable!("both are piped") };
        let said = Arc::new(Mutex::new(Vec::new()));
        // somebody has to read standard error: the process waits where nobody does
        let listener = thread::spawn({
            let said = Arc::clone(&said);
            move || remember(from, &said)
        });
        let mut run = Run {
            child: Arc::new(Mutex::new(child)),
            turns,
            answers: BufReader::new(answers),
            said,
            listener: Some(listener),
        };
        let past = run.begin(&setup)?;
        Ok((run, past))
    }

    /// Tells the setup; what the process begins with, and the old answers. A document with a number that isn't due marks
    /// their end: its fault has the number that is.
    fn begin(&mut self, setup: &str) -> Result<Past, Error> {
        let first = self.exchange(&format!("{setup}{}", document("turn = 0")?))?;
        let greeting = Json::read(&first)?;
        if greeting.get("fault").is_some() {
            return Err(self.ended(&first)); // of the setup
        }
        format_of(&greeting)?;
        let mut lines = Vec::new();
        loop {
            let line = self.line()?;
            let answer = Json::read(&line)?;
            if answer.get("fault").is_some() {
                return Ok(Past { lines, turns: answer.number("turn")?.saturating_sub(1) as usize });
            }
            lines.push(line);
        }
    }

    /// Writes a document, and reads a line.
    fn exchange(&mut self, document: &str) -> Result<String, Error> {
        let written = match &mut self.turns {
            Some(turns) => turns.write_all(document.as_bytes()),
            None => Err(io::ErrorKind::BrokenPipe.into()),
        };
        match written {
            Ok(()) => self.line(),
            // it said why, on standard output if the setup has a fault
            Err(_) => {
                let line = self.line()?;
                Err(self.ended(&line))
            }
        }
    }

    fn line(&mut self) -> Result<String, Error> {
        let mut line = String::new();
        match self.answers.read_line(&mut line) {
            Ok(_) if line.ends_with('\n') => Ok(line),
            Ok(_) => Err(self.ended("")),
            Err(error) => {
                self.end();
                Err(Error::Io(error))
            }
        }
    }

    /// Why the process ended, of which this is the last line.
    fn ended(&mut self, line: &str) -> Error {
        self.turns = None;
        let status = locked(&self.child).wait();
        self.join();
        match status {
            Ok(status) => Error::of(status.code(), line, &text(&locked(&self.said))),
            Err(error) => Error::Io(error),
        }
    }

    /// Ends the process.
    fn end(&mut self) {
        self.turns = None;
        let _ = locked(&self.child).kill();
        let _ = locked(&self.child).wait();
        self.join();
    }

    fn join(&mut self) {
        if let Some(listener) = self.listener.take() {
            let _ = listener.join();
        }
    }
}

impl Drop for Run {
    fn drop(&mut self) {
        self.end();
    }
}

/// Reads all that comes, and remembers the end of it.
fn remember(mut from: ChildStderr, said: &Mutex<Vec<u8>>) {
    let mut piece = [0; 4096];
    while let Ok(count @ 1..) = from.read(&mut piece) {
        let mut said = locked(said);
        said.extend_from_slice(&piece[..count]);
        let beyond = said.len().saturating_sub(MOST_SAID);
        said.drain(..beyond);
    }
}

fn locked<T>(mutex: &Mutex<T>) -> MutexGuard<'_, T> {
    mutex.lock().unwrap_or_else(PoisonError::into_inner)
}

#[cfg(test)]
mod tests {
    use super::*;
    use std::{env, fs, process, time::Duration};

    /// A turn that the journal has isn't told again, though its answer was never read.
    #[test]
    fn taken_turns_are_not_told_again() {
        let Some(program) = env::var_os("IBCPLAN") else { return };
        let journal = env::temp_dir().join(format!("ibcplan-test-{}-taken", process::id()));
        let mut follower = Planner::new(program).follow("version = 3", Some(&journal)).unwrap();
        let size = || fs::metadata(&journal).unwrap().len();
        let before = size();
        let turn = "from = '2025-03-01T12:00:00Z'\nuntil = '2025-03-01T12:00:00Z'";
        let written = follower.run.turns.as_mut().map(|turns| turns.write_all(document(turn).unwrap().as_bytes()));
        assert!(written.is_some_and(|written| written.is_ok()));
        while size() == before {
            thread::sleep(Duration::from_millis(1));
        }
        follower.stopper().stop().unwrap();
        assert!(matches!(follower.restart(), Ok(Some(_))));
        assert_eq!(follower.turns(), 1);
        fs::remove_file(journal).unwrap();
    }
}
