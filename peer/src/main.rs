//! A simple second frame coder, and the comparison of another program with it.
//!
//! `peer answer` answers the lines of the text protocol. `peer compare BENCH` gives random lines
//! to the program BENCH and compares every answer with its own. `peer lines` prints those lines.

use std::io::{self, BufRead, Write};
use std::process::ExitCode;

use peer::compare::{self, plan::Plan};
use peer::protocol::without_end;
use peer::session::Session;

const USAGE: &str = "usage: peer answer
       peer compare BENCH [--seed N] [--calls seven|ten|all] [--lines N] [--seconds S]
       peer lines [--seed N] [--calls seven|ten|all] [--lines N]";

fn main() -> ExitCode {
    let arguments: Vec<String> = std::env::args().skip(1).collect();
    let words: Vec<&str> = arguments.iter().map(String::as_str).collect();
    match words[..] {
        ["answer"] => ended(answer_all(io::stdin().lock(), io::stdout().lock())),
        ["compare", program, ref options @ ..] => match Plan::of(program, options) {
            Some(plan) => compare::run(&plan),
            None => failed(USAGE),
        },
        ["lines", ref options @ ..] => match Plan::of("", options) {
            Some(plan) => ended(print_lines(&plan, io::stdout().lock())),
            None => failed(USAGE),
        },
        _ => failed(USAGE),
    }
}

/// Status 0, or what went wrong.
fn ended(outcome: io::Result<()>) -> ExitCode {
    match outcome {
        Ok(()) => ExitCode::SUCCESS,
        Err(error) => failed(&error.to_string()),
    }
}

/// Says on standard error what went wrong; status 2.
fn failed(message: &str) -> ExitCode {
    eprintln!("{message}");
    ExitCode::from(2)
}

/// Answers every line, each at once.
fn answer_all(mut input: impl BufRead, mut output: impl Write) -> io::Result<()> {
    let mut session = Session::default();
    let mut line = Vec::new();
    while input.read_until(b'\n', &mut line)? > 0 {
        if let Some(answer) = session.answer(without_end(&line)) {
            writeln!(output, "{answer}")?;
            output.flush()?;
        }
        line.clear();
    }
    Ok(())
}

/// Prints the first lines of a run.
fn print_lines(plan: &Plan, mut output: impl Write) -> io::Result<()> {
    let mut script = plan.script();
    for _ in 0..plan.lines {
        output.write_all(&script.next_line().line)?;
    }
    Ok(())
}

#[cfg(test)]
mod tests {
    use super::*;

    #[test]
    fn each_line_is_answered_and_the_last_may_lack_its_end() {
        let input = b"# sizes\nsize 0 1 2 63 0\r\n\n\xff\nsize 0 1 29 63 0";
        let mut output = Vec::new();
        answer_all(&input[..], &mut output).unwrap();
        assert_eq!(output, b"size 1 21\nunreadable\nrefused 5\n");
    }
}
