//! Scripts and plans: one call on the solver in each line, and one line of text for each answer.

use crate::solver::{Refusal, Solver, Verdict};
use std::fmt;

/// What a line asks for, with its numbers as they stand.
#[derive(Clone, Debug, PartialEq, Eq)]
pub enum Call {
    Open,
    Add(usize, usize),
    Remove(usize, usize),
    Raise,
    Trial(usize, usize, usize),
    Check(Vec<u8>),
}

/// Which calls a text may ask for. A plan has no trials and no checks.
#[derive(Clone, Copy, Debug, PartialEq, Eq)]
pub enum Form {
    Plan,
    Script,
}

#[derive(Clone, Copy, Debug, PartialEq, Eq)]
pub enum Answer {
    Opened(usize),
    Done,
    Infeasible(usize),
    Open(usize),
    Passes,
    Refused(Refusal),
}

impl fmt::Display for Answer {
    fn fmt(&self, f: &mut fmt::Formatter) -> fmt::Result {
        match *self {
            Answer::Opened(vertex) => write!(f, "batch {vertex}"),
            Answer::Done => write!(f, "ok"),
            Answer::Infeasible(degree) => write!(f, "few {degree}"),
            Answer::Open(degree) => write!(f, "open {degree}"),
            Answer::Passes => write!(f, "passes"),
            Answer::Refused(refusal) => write!(f, "no {}", refusal as u8),
        }
    }
}

/// The lines without their ends. The last may lack its end; after an end at the end there is no line.
pub fn lines(text: &[u8]) -> Vec<&[u8]> {
    let mut lines: Vec<&[u8]> = text.split(|&byte| byte == b'\n').collect();
    if lines.last().is_some_and(|last| last.is_empty()) {
        lines.pop();
    }
    lines
}

/// None where the line is malformed.
pub fn read(line: &[u8], form: Form) -> Option<Call> {
    let mut words = line.split(|&byte| byte == b' ');
    let name = words.next()?;
    let words: Vec<&[u8]> = words.collect();
    match (name, &words[..], form) {
        (b"B", [], _) => Some(Call::Open),
        (b"C", [i, j], _) => Some(Call::Add(number(i)?, number(j)?)),
        (b"W", [i, j], _) => Some(Call::Remove(number(i)?, number(j)?)),
        (b"R", [], _) => Some(Call::Raise),
        (b"T", [i, j, degree], Form::Script) => Some(Call::Trial(number(i)?, number(j)?, number(degree)?)),
        (b"K", [digits], Form::Script) => Some(Call::Check(hexadecimal(digits)?)),
        _ => None,
    }
}

/// One to three decimal digits.
fn number(word: &[u8]) -> Option<usize> {
    if !(1..=3).contains(&word.len()) || !word.iter().all(u8::is_ascii_digit) {
        return None;
    }
    Some(word.iter().fold(0, |value, digit| 10 * value + (digit - b'0') as usize))
}

/// Two digits or more, an even number of them, in either case.
fn hexadecimal(word: &[u8]) -> Option<Vec<u8>> {
    if word.is_empty() || word.len() % 2 == 1 {
        return None;
    }
    let value = |digit: u8| (digit as char).to_digit(16).map(|value| value as u8);
    word.chunks(2).map(|pair| Some(16 * value(pair[0])? + value(pair[1])?)).collect()
}

/// A call that was asked for, none where the line was malformed, and its answer.
pub type Answered = (Option<Call>, Answer);

/// Makes the calls of the lines one after another, with the same table and certificate memory for all.
pub fn run(solver: &mut Solver, lines: &[&[u8]], form: Form, table: &mut [u8], memory: &mut [u8]) -> Vec<Answered> {
    let mut answered = Vec::new();
    for line in lines {
        let call = read(line, form);
        let answer = match &call {
            None => Err(Refusal::MalformedLine),
            Some(call) => make(solver, call, table, memory),
        };
        answered.push((call, answer.unwrap_or_else(Answer::Refused)));
    }
    answered
}

fn make(solver: &mut Solver, call: &Call, table: &mut [u8], memory: &mut [u8]) -> Result<Answer, Refusal> {
    let verdict = |verdict, degree| match verdict {
        Verdict::Infeasible(_) => Answer::Infeasible(degree),
        Verdict::Open => Answer::Open(degree),
    };
    match *call {
        Call::Open => solver.open().map(Answer::Opened),
        Call::Add(i, j) => solver.add(i, j).map(|()| Answer::Done),
        Call::Remove(i, j) => solver.remove(i, j).map(|()| Answer::Done),
        Call::Raise => solver.raise(table, memory).map(|answer| verdict(answer, solver.reached())),
        Call::Trial(i, j, degree) => solver.trial(i, j, degree, table, memory).map(|answer| verdict(answer, degree)),
        Call::Check(ref bytes) => solver.check(bytes, table).map(|()| Answer::Passes),
    }
}
