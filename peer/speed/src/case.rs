//! One stage with settings and lists: that both coders agree on it, and how long each takes.

use crate::library::Answer;
use crate::second::{self, Room};
use crate::timing::in_turns;
use peer::refusal::Refusal;
use peer::stages::Stage;
use std::hint::black_box;

/// A call of the library with its settings in it.
pub trait Call: Fn(&[u8], &mut [u8], &mut [u8]) -> Answer {}
impl<C: Fn(&[u8], &mut [u8], &mut [u8]) -> Answer> Call for C {}

/// A stage of the second coder, and the library's two calls of the same stage.
pub struct Case<S, C, D> {
    pub stage: S,
    pub code: C,
    pub decode: D,
}

/// How long each coder takes, in nanoseconds per element of the coding.
#[derive(Clone, Copy)]
pub struct Times {
    pub library: f64,
    pub second: f64,
}

impl Times {
    pub fn ratio(self) -> f64 {
        self.library / self.second
    }
}

/// The two buffers that are lent to the library, and the one that the second coder fills.
struct Buffers {
    work: Vec<u8>,
    result: Vec<u8>,
    out: Vec<u8>,
}

impl Buffers {
    fn of(room: usize) -> Buffers {
        Buffers { work: vec![0; room], result: vec![0; room], out: Vec::with_capacity(room) }
    }

    fn room(&self) -> Room {
        Room { work: self.work.len(), result: self.result.len() }
    }
}

impl<S: Stage, C: Call, D: Call> Case<S, C, D> {
    /// The codings of the lists, on which both coders agree, as they do on damaged ones and on
    /// buffers that are too short.
    pub fn codings(&self, lists: &[Vec<u8>]) -> Vec<Vec<u8>> {
        lists.iter().enumerate().map(|(at, list)| self.agreed(at, list)).collect()
    }

    /// The coding of one list, by which `at` the damage changes.
    fn agreed(&self, at: usize, list: &[u8]) -> Vec<u8> {
        let coding = self.agreed_coding(list, 0).expect("the list is legal");
        let room = list.len().max(coding.len());
        assert_eq!(self.agreed_message(&coding, 0).as_deref(), Ok(list));
        for short in [1, room] {
            assert_eq!(self.agreed_coding(list, short), Err(Refusal::Room));
            assert_eq!(self.agreed_message(&coding, short), Err(Refusal::Room));
        }
        for change in [1, 2, 255] {
            let mut damaged = coding.clone();
            damaged[at * 7 % coding.len()] ^= change;
            let _ = self.agreed_message(&damaged, 0);
            let _ = self.agreed_coding(&damaged, 0);
        }
        let _ = self.agreed_message(&coding[1..], 0);
        let _ = self.agreed_coding(&list[1..], 0);
        coding
    }

    /// The answer of both coders to `code`, with buffers that are so much too short.
    fn agreed_coding(&self, list: &[u8], short: usize) -> Result<Vec<u8>, Refusal> {
        let longest = list.len().max(self.stage.coded_length(list.len()).unwrap_or(0));
        let mut buffers = Buffers::of(longest - short);
        let room = buffers.room();
        let answer = (self.code)(list, &mut buffers.work, &mut buffers.result);
        let second = second::code(&self.stage, list, room, &mut buffers.out);
        same(answer, second.map(|()| buffers.out), &buffers.result)
    }

    /// The answer of both coders to `decode`, likewise.
    fn agreed_message(&self, list: &[u8], short: usize) -> Result<Vec<u8>, Refusal> {
        let longest = list.len().max(self.stage.message_length(list.len()).unwrap_or(0));
        let mut buffers = Buffers::of(longest - short);
        let room = buffers.room();
        let answer = (self.decode)(list, &mut buffers.work, &mut buffers.result);
        let second = second::decode(&self.stage, list, room, &mut buffers.out);
        same(answer, second.map(|()| buffers.out), &buffers.result)
    }

    /// How long coding takes.
    pub fn time_code(&self, lists: &[Vec<u8>], codings: &[Vec<u8>]) -> Times {
        let mut buffers = buffers_for(lists, codings);
        let room = buffers.room();
        let library = || {
            for list in lists {
                black_box((self.code)(black_box(list), &mut buffers.work, &mut buffers.result));
                black_box(&mut buffers.result);
            }
        };
        let second = || {
            for list in lists {
                let answer = second::code(&self.stage, black_box(list), room, &mut buffers.out);
                black_box(answer.is_ok());
                black_box(&mut buffers.out);
            }
        };
        per_element(in_turns(library, second), codings)
    }

    /// How long decoding takes.
    pub fn time_decode(&self, lists: &[Vec<u8>], codings: &[Vec<u8>]) -> Times {
        let mut buffers = buffers_for(lists, codings);
        let room = buffers.room();
        let library = || {
            for list in codings {
                black_box((self.decode)(black_box(list), &mut buffers.work, &mut buffers.result));
                black_box(&mut buffers.result);
            }
        };
        let second = || {
            for list in codings {
                let answer = second::decode(&self.stage, black_box(list), room, &mut buffers.out);
                black_box(answer.is_ok());
                black_box(&mut buffers.out);
            }
        };
        per_element(in_turns(library, second), codings)
    }
}

/// The one answer that both coders gave.
fn same(
    answer: Answer,
    second: Result<Vec<u8>, Refusal>,
    result: &[u8],
) -> Result<Vec<u8>, Refusal> {
    let expected = match &second {
        Ok(list) => Answer { refusal: 0, stage: 0, length: list.len(), place: 0, depth: 0 },
        Err(Refusal::Fault(fault)) => Answer {
            refusal: 10,
            stage: fault.stage,
            length: 0,
            place: fault.place,
            depth: fault.depth,
        },
        Err(refusal) => {
            Answer { refusal: refusal.number(), stage: 0, length: 0, place: 0, depth: 0 }
        }
    };
    assert_eq!(answer, expected);
    if let Ok(list) = &second {
        assert_eq!(list, &result[..list.len()]);
    }
    second
}

/// Buffers with room for every list and coding.
fn buffers_for(lists: &[Vec<u8>], codings: &[Vec<u8>]) -> Buffers {
    let longest = lists.iter().chain(codings).map(Vec::len).max();
    Buffers::of(longest.unwrap_or(0))
}

/// Times of one pass over all codings as times per element of them.
fn per_element((library, second): (f64, f64), codings: &[Vec<u8>]) -> Times {
    let elements = codings.iter().map(Vec::len).sum::<usize>() as f64;
    Times { library: library / elements, second: second / elements }
}
