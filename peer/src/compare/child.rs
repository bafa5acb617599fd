//! The program to be compared, run beside this one: a thread writes the lines to it, another reads
//! its answers, so that neither program waits for the other.

use std::fmt;
use std::io::{self, BufRead, BufReader, Write};
use std::process::{self, ChildStdin, ChildStdout, Command, Stdio};
use std::sync::mpsc::{channel, sync_channel, Receiver, RecvTimeoutError, Sender, SyncSender};
use std::thread::{self, JoinHandle};
use std::time::{Duration, Instant};

use super::history::shown;
use super::plan::Plan;
use super::script::{Asked, Script};

/// How many lines may be made before the program answers.
const AHEAD: usize = 1_000;

/// What came from the program.
#[derive(Debug, PartialEq, Eq)]
pub enum Heard {
    /// An answer line, without its line feed.
    Answer(Vec<u8>),
    /// The program has closed its output.
    End,
    /// The program said nothing until the run was to end.
    Nothing,
    /// The program ended with a status other than 0.
    Failure(String),
}

impl fmt::Display for Heard {
    fn fmt(&self, out: &mut fmt::Formatter<'_>) -> fmt::Result {
        match self {
            Heard::Answer(text) => write!(out, "{}", shown(text)),
            Heard::End => write!(out, "(end of its answers)"),
            Heard::Nothing => write!(out, "(no answer in time)"),
            Heard::Failure(status) => write!(out, "({status})"),
        }
    }
}

/// The running program.
pub struct Child {
    process: process::Child,
    /// The thread that makes the lines, until it was waited for.
    writer: Option<JoinHandle<()>>,
    asked: Receiver<Asked>,
    answers: Receiver<Vec<u8>>,
}

impl Child {
    /// Starts the program and the two threads.
    pub fn start(plan: &Plan) -> io::Result<Child> {
        let mut process =
            Command::new(&plan.program).stdin(Stdio::piped()).stdout(Stdio::piped()).spawn()?;
        let (input, output) = (process.stdin.take(), process.stdout.take());
        let (input, output) = input.zip(output).ok_or(io::ErrorKind::BrokenPipe)?;
        let (asking, asked) = sync_channel(AHEAD);
        let (answering, answers) = channel();
        let (script, count) = (plan.script(), plan.lines);
        let end = Instant::now() + plan.time() * 3 / 4;
        let writer = thread::spawn(move || write_lines(input, script, count, end, &asking));
        thread::spawn(move || read_answers(output, &answering));
        Ok(Child { process, writer: Some(writer), asked, answers })
    }

    /// The next line that was asked, or none behind the last.
    ///
    /// Panics if a fault of this program's own coder kept the lines from going on.
    pub fn next_asked(&mut self) -> Option<Asked> {
        let asked = self.asked.recv().ok();
        if asked.is_none() {
            let ended = self.writer.take().map_or(Ok(()), JoinHandle::join);
            ended.expect("the lines should be made and answered without a fault of peer");
        }
        asked
    }

    /// What the program says next, if it does so until `end`.
    pub fn hear(&self, end: Instant) -> Heard {
        let left = end.saturating_duration_since(Instant::now());
        match self.answers.recv_timeout(left) {
            Ok(answer) => Heard::Answer(answer),
            Err(RecvTimeoutError::Disconnected) => Heard::End,
            Err(RecvTimeoutError::Timeout) => Heard::Nothing,
        }
    }

    /// How the program ends, which it should do by itself and with status 0 until `end`.
    pub fn hear_end(&mut self, end: Instant) -> Heard {
        let heard = self.hear(end);
        if heard != Heard::End {
            return heard;
        }
        while Instant::now() < end {
            match self.process.try_wait() {
                Ok(Some(status)) if status.success() => return Heard::End,
                Ok(Some(status)) => return Heard::Failure(status.to_string()),
                Ok(None) => thread::sleep(Duration::from_millis(5)),
                Err(error) => return Heard::Failure(error.to_string()),
            }
        }
        Heard::Nothing
    }

    /// Ends the program, which may have ended by itself.
    pub fn stop(&mut self) {
        // An error only says that there is nothing left to end.
        let _ = self.process.kill();
        let _ = self.process.wait();
    }
}

/// Makes lines, answers them, and writes them to the program: `count` of them or until `end`, and
/// then the last one.
fn write_lines(
    mut input: ChildStdin,
    mut script: Script,
    count: usize,
    end: Instant,
    asking: &SyncSender<Asked>,
) {
    for _ in 0..count {
        if Instant::now() >= end || ask(&mut input, asking, script.next_line()).is_none() {
            break;
        }
    }
    ask(&mut input, asking, script.last());
}

/// Hands a line to the comparison and to the program; none if one of them has gone.
fn ask(input: &mut ChildStdin, asking: &SyncSender<Asked>, asked: Asked) -> Option<()> {
    let line = asked.line.clone();
    asking.send(asked).ok()?;
    input.write_all(&line).ok()
}

/// Hands the program's answers to the comparison, line by line.
fn read_answers(output: ChildStdout, answering: &Sender<Vec<u8>>) {
    for answer in BufReader::new(output).split(b'\n') {
        let handed = answer.map(|answer| answering.send(answer));
        if !matches!(handed, Ok(Ok(()))) {
            return;
        }
    }
}
