//! The two entries of the library that take a text, as this implementation answers them.

use crate::equations::Encoding;
use crate::field::Field;
use crate::script::{lines, run, Answer, Answered, Form};
use crate::solver::{Refusal, Solver};

pub const LONGEST_PLAN: usize = 4096;
pub const LONGEST_SCRIPT: usize = 65_536;
pub const LARGEST_TABLE: usize = 1_048_576;
pub const LONGEST_ANSWER: usize = 9;
pub const PLAN_TABLE: usize = 65_536;
pub const PLAN_CERTIFICATE: usize = 16_384;

/// The returned values that are no length.
pub const NO_SUCH_KIND: i64 = -1;
pub const TABLE_TOO_LARGE: i64 = -3;
pub const TEXT_TOO_SHORT: i64 = -4;
pub const SCRIPT_TOO_LONG: i64 = -10;

/// A new solver of a kind: bits plain, bits triangles, four values plain, four values triangles.
pub fn solver(kind: u32) -> Option<Solver> {
    let (field, encoding) = match kind {
        0 => (Field::Bits, Encoding::Plain),
        1 => (Field::Bits, Encoding::Triangles),
        2 => (Field::FourValues, Encoding::Plain),
        3 => (Field::FourValues, Encoding::Triangles),
        _ => return None,
    };
    Some(Solver::new(field, encoding))
}

/// The text memory that is enough for so many lines.
pub fn text_length(lines: usize) -> usize {
    LONGEST_ANSWER * lines.max(1)
}

/// Answers a plan on a solver over bits with the plain encoding. Returns the length of the text.
pub fn plan(plan: &[u8], text: &mut [u8]) -> (i64, Vec<Answered>) {
    let too_long = plan.len() > LONGEST_PLAN;
    let lines = if too_long { Vec::new() } else { lines(plan) };
    if text.len() < text_length(lines.len()) {
        return (TEXT_TOO_SHORT, Vec::new());
    }
    let answered = if too_long {
        vec![(None, Answer::Refused(Refusal::PlanTooLong))]
    } else {
        let mut solver = Solver::new(Field::Bits, Encoding::Plain);
        run(&mut solver, &lines, Form::Plan, &mut vec![0; PLAN_TABLE], &mut vec![0; PLAN_CERTIFICATE])
    };
    (write(&answered, text), answered)
}

/// Answers a script on a solver of the kind, with the table and the certificate memory lent to every call.
pub fn script(
    kind: u32,
    script: &[u8],
    table: &mut [u8],
    certificate: &mut [u8],
    text: &mut [u8],
) -> (i64, Vec<Answered>) {
    let Some(mut solver) = solver(kind) else {
        return (NO_SUCH_KIND, Vec::new());
    };
    if script.len() > LONGEST_SCRIPT {
        return (SCRIPT_TOO_LONG, Vec::new());
    }
    let lines = lines(script);
    if text.len() < text_length(lines.len()) {
        return (TEXT_TOO_SHORT, Vec::new());
    }
    if table.len() > LARGEST_TABLE {
        return (TABLE_TOO_LARGE, Vec::new());
    }
    let answered = run(&mut solver, &lines, Form::Script, table, certificate);
    (write(&answered, text), answered)
}

fn write(answered: &[Answered], text: &mut [u8]) -> i64 {
    let written: String = answered.iter().map(|(_, answer)| format!("{answer}\n")).collect();
    text[..written.len()].copy_from_slice(written.as_bytes());
    written.len() as i64
}
