//! Drives another program with random lines and compares every answer.

mod child;
mod frames;
mod headers;
mod history;
mod lines;
mod lists;
mod odd;
pub mod plan;
mod random;
mod receiving;
pub mod script;
mod sending;
mod settings;
mod single;
mod tally;

use std::process::ExitCode;
use std::time::Instant;

use child::{Child, Heard};
use history::{shown, History};
use plan::Plan;
use tally::Tally;

/// A line to which the two programs do not give the same answer.
struct Difference {
    /// Which line of the run, counted from 1.
    number: usize,
    /// The line and those before it that it rests on.
    script: Vec<Vec<u8>>,
    expected: String,
    heard: String,
}

/// Runs the comparison and tells what came out. Status 0: all answers agree; 1: a difference;
/// 2: the program cannot be started; 3: the answers agree, but there were too few to mean anything.
pub fn run(plan: &Plan) -> ExitCode {
    let start = Instant::now();
    let mut child = match Child::start(plan) {
        Ok(child) => child,
        Err(error) => {
            eprintln!("cannot start {}: {error}", plan.program);
            return ExitCode::from(2);
        }
    };
    let mut tally = Tally::new(plan.range);
    let outcome = compare(&mut child, &mut tally, start + plan.time());
    child.stop();
    println!("{tally}");
    println!("seed {}, {:.1} s", plan.seed, start.elapsed().as_secs_f64());
    match outcome {
        Err(difference) => {
            tell(plan, &difference);
            ExitCode::from(1)
        }
        Ok(()) => {
            if tally.lines() <= plan.lines {
                println!("stopped by time");
            }
            reached(&tally)
        }
    }
}

/// Compares answer by answer, until there are no more lines or the first difference.
fn compare(child: &mut Child, tally: &mut Tally, end: Instant) -> Result<(), Difference> {
    let mut history = History::default();
    let mut number = 0;
    while let Some(asked) = child.next_asked() {
        number += 1;
        tally.count(&asked.label, asked.expected.as_deref());
        let Some(expected) = asked.expected else {
            continue;
        };
        let heard = child.hear(end);
        if heard != Heard::Answer(expected.clone().into_bytes()) {
            let script = history.script(asked.line);
            return Err(Difference { number, script, expected, heard: heard.to_string() });
        }
        history.add(asked.line, &expected);
    }
    let heard = child.hear_end(end);
    if heard != Heard::End {
        return Err(Difference {
            number,
            script: vec![b"(behind the last line)".to_vec()],
            expected: Heard::End.to_string(),
            heard: heard.to_string(),
        });
    }
    Ok(())
}

/// Prints a difference with all that is needed to make it again.
fn tell(plan: &Plan, difference: &Difference) {
    println!("DIFFERENCE at line {} of seed {}", difference.number, plan.seed);
    for line in &difference.script {
        println!("line: {}", shown(line));
    }
    println!("peer: {}", difference.expected);
    println!("{}: {}", plan.program, difference.heard);
}

/// Status 0 if the run reached all kinds of answers, else 3 and what it did not reach.
fn reached(tally: &Tally) -> ExitCode {
    let unreached = tally.unreached();
    if unreached.is_empty() {
        println!("no difference");
        return ExitCode::SUCCESS;
    }
    println!("no difference, but too few lines to mean anything:");
    for what in unreached {
        println!("  {what}");
    }
    ExitCode::from(3)
}
