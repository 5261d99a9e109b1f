//! How often each call was made, and each answer given.

use crate::cases::{Case, Entry};
use compare::script::{Answer, Answered, Call};
use std::collections::BTreeMap;
use std::fmt;

const REFUSALS: usize = 18;
const CALLS: [&str; 7] = ["open", "add", "remove", "raise", "trial", "check", "line"];

#[derive(Default)]
pub struct Counts {
    plans: u64,
    scripts: u64,
    lines: u64,
    /// For each call: how many were accepted, and how many of these said infeasible.
    accepted: [u64; CALLS.len()],
    infeasible: [u64; CALLS.len()],
    /// For each refusal and call.
    refused: [[u64; CALLS.len()]; REFUSALS + 1],
    /// Returned values that are no length.
    returned: BTreeMap<i64, u64>,
}

impl Counts {
    pub fn count(&mut self, case: &Case, returned: i64, answered: &[Answered]) {
        match case.entry {
            Entry::Plan => self.plans += 1,
            Entry::Script(_) => self.scripts += 1,
        }
        if returned < 0 {
            *self.returned.entry(returned).or_default() += 1;
        }
        self.lines += answered.len() as u64;
        for (call, answer) in answered {
            let call = match call {
                Some(Call::Open) => 0,
                Some(Call::Add(..)) => 1,
                Some(Call::Remove(..)) => 2,
                Some(Call::Raise) => 3,
                Some(Call::Trial(..)) => 4,
                Some(Call::Check(_)) => 5,
                None => 6,
            };
            match answer {
                Answer::Refused(refusal) => self.refused[*refusal as usize][call] += 1,
                _ => self.accepted[call] += 1,
            }
            if matches!(answer, Answer::Infeasible(_)) {
                self.infeasible[call] += 1;
            }
        }
    }

    pub fn cases(&self) -> u64 {
        self.plans + self.scripts
    }
}

impl fmt::Display for Counts {
    fn fmt(&self, f: &mut fmt::Formatter) -> fmt::Result {
        let [opened, added, removed, raises, trials, checks, _] = self.accepted;
        let [.., few_raises, few_trials, _, _] = self.infeasible;
        writeln!(f, "{} scripts and {} plans with {} lines", self.scripts, self.plans, self.lines)?;
        writeln!(f, "{opened} vertices opened, {added} edges added, {removed} removed")?;
        writeln!(f, "raises: {few_raises} infeasible, {} open", raises - few_raises)?;
        writeln!(f, "trials: {few_trials} infeasible, {} open", trials - few_trials)?;
        writeln!(f, "checks: {checks} passed, {} refused", self.refused.iter().map(|by_call| by_call[5]).sum::<u64>())?;
        for (returned, times) in &self.returned {
            writeln!(f, "no text, {returned} returned: {times}")?;
        }
        write!(f, "refused by")?;
        for call in CALLS {
            write!(f, "{call:>9}")?;
        }
        writeln!(f, "{:>9}", "in all")?;
        let mut never = Vec::new();
        for (number, by_call) in self.refused.iter().enumerate().skip(1) {
            write!(f, "{number:>10}")?;
            for times in by_call {
                write!(f, "{times:>9}")?;
            }
            let in_all: u64 = by_call.iter().sum();
            writeln!(f, "{in_all:>9}")?;
            if in_all == 0 {
                never.push(number.to_string());
            }
        }
        if never.is_empty() {
            write!(f, "each refusal occurred")
        } else {
            write!(f, "never refused by: {}", never.join(", "))
        }
    }
}
