//! A relayer's loop over `ibcplan follow`, by Rust's standard library alone.
//!
//!     rustc -o client examples/follow/client.rs && ./client ./ibcplan examples/follow/setup.toml examples/follow/turns.txt
//!
//! It tells each turn of the file to one process, shows what is to be sent, and tells in a turn of its own that all of
//! it was taken. A real relayer makes the turns of what it sees, and sends the updates and the messages in between.
use std::io::{self, BufRead, BufReader, Read, Write};
use std::process::{Child, ChildStdin, ChildStdout, Command, Stdio};

const MARK: &str = "---\n";

/// A process that is told turns, and answers each.
struct Engine {
    process: Child,
    turns: ChildStdin,
    answers: BufReader<ChildStdout>,
}

impl Engine {
    fn new(program: &str, setup: &str) -> io::Result<Engine> {
        let mut process = Command::new(program).args(["follow", setup]).stdin(Stdio::piped()).stdout(Stdio::piped()).spawn()?;
        let (turns, answers) = (process.stdin.take().unwrap(), process.stdout.take().unwrap());
        let mut engine = Engine { process, turns, answers: BufReader::new(answers) };
        engine.answers.read_line(&mut String::new())?; // "ibcplan 1", "ibcplan 3" or "ibcplan 4"
        Ok(engine)
    }

    /// The lines of the answer to a turn.
    fn answer(&mut self, turn: &str) -> io::Result<Vec<String>> {
        self.turns.write_all(format!("{turn}{MARK}").as_bytes())?;
        let lines = self.answers.by_ref().lines().take_while(|line| !matches!(line, Ok(text) if text == "---"));
        lines.collect()
    }

    fn end(mut self) -> io::Result<bool> {
        drop(self.turns);
        let mut rest = String::new();
        self.answers.read_to_string(&mut rest)?;
        Ok(rest == "end\n" && self.process.wait()?.success())
    }
}

/// A batch that an answer opens, as a settlement that tells that all its transactions were taken.
fn settlements(lines: &[String]) -> Vec<String> {
    let (mut client, mut batches) = ("", Vec::<(&str, &str, u32)>::new());
    for line in lines {
        let words: Vec<&str> = line.split(' ').collect();
        match words[..] {
            ["client", id, ..] => client = id,
            ["batch", number, ..] => batches.push((client, number, 0)),
            ["tx", ..] => batches.last_mut().unwrap().2 += 1,
            _ => {}
        }
    }
    let settled = |(client, number, count): &(&str, &str, u32)| format!("{{ client = \"{client}\", batch = {number}, done = {count} }}");
    batches.iter().map(settled).collect()
}

fn main() -> io::Result<()> {
    let words: Vec<String> = std::env::args().collect();
    let mut engine = Engine::new(&words[1], &words[2])?;
    for turn in std::fs::read_to_string(&words[3])?.split_terminator(MARK) {
        let lines = engine.answer(turn)?;
        lines.iter().for_each(|line| println!("{line}"));
        let taken = settlements(&lines);
        if !taken.is_empty() {
            // here a relayer sends the batches' transactions, and sees how many were taken
            let window = turn.lines().filter(|line| line.starts_with("from ") || line.starts_with("until ")).collect::<Vec<_>>().join("\n");
            let answer = engine.answer(&format!("{window}\nsettle = [{}]\n", taken.join(", ")))?;
            answer.iter().filter(|line| line.starts_with("settled")).for_each(|line| println!("{line}"));
        }
    }
    assert!(engine.end()?, "the process didn't end as it has to");
    Ok(())
}
