//! Without the library: the solver compared with itself over the other field. The answers must be the same, and the
//! certificates but for byte 1.

use crate::cases::{Case, Entry, Memory, Outcome};
use compare::entries::{self, PLAN_CERTIFICATE, PLAN_TABLE};
use compare::equations::Encoding;
use compare::field::Field;
use compare::script::{lines, run, Answer, Answered, Call, Form};
use compare::solver::{Refusal, Solver};

pub const AGAINST: &str = "bits against four values, without the library";

/// What is not the same over the other field.
pub fn difference(case: &Case, ours: &Outcome, answered: &[Answered]) -> Option<String> {
    let Entry::Script(kind @ 0..=3) = case.entry else {
        return plan_difference(case, answered);
    };
    let Memory { mut table, mut certificate, mut text } = case.memory.clone();
    let input = for_the_other_field(&case.input);
    let (returned, others) = entries::script(kind ^ 2, &input, &mut table, &mut certificate, &mut text);
    // The other codes of the four values are refused over bits.
    let refused_by_bits = |(ours, theirs): (&Answered, &Answered)| {
        let bits = if kind < 2 { ours.1 } else { theirs.1 };
        matches!(ours.0, Some(Call::Check(_))) && bits == Answer::Refused(Refusal::MalformedBody)
    };
    if answered.iter().zip(&others).any(refused_by_bits) {
        let same = |pair: (&Answered, &Answered)| pair.0 .1 == pair.1 .1 || refused_by_bits(pair);
        return (!answered.iter().zip(&others).all(same)).then(|| "another answer over the other field\n".to_string());
    }
    if let [_, order, ..] = &mut certificate[..] {
        *order = ours.memory.certificate[1];
    }
    ours.difference(&Outcome { returned, memory: Memory { table, certificate, text } })
}

/// The lines of a plan on a solver over four values.
fn plan_difference(case: &Case, answered: &[Answered]) -> Option<String> {
    let Some((Some(_), _)) = answered.first() else {
        return None;
    };
    let mut solver = Solver::new(Field::FourValues, Encoding::Plain);
    let (mut table, mut memory) = (vec![0; PLAN_TABLE], vec![0; PLAN_CERTIFICATE]);
    let others = run(&mut solver, &lines(&case.input), Form::Plan, &mut table, &mut memory);
    (others != answered).then(|| "another answer over four values\n".to_string())
}

/// The script with the other order in each certificate that has one of the two.
fn for_the_other_field(script: &[u8]) -> Vec<u8> {
    let mut changed = script.to_vec();
    let mut start = 0;
    for line in lines(script) {
        if let Some(Call::Check(bytes)) = compare::script::read(line, Form::Script) {
            if let Some(order @ (2 | 4)) = bytes.get(1) {
                changed[start + 5] = b'0' + (6 - order);
            }
        }
        start += line.len() + 1;
    }
    changed
}
