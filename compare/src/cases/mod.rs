//! Cases to compare: a text for one of the two entries, and the memory that is lent with it.

mod draft;
pub mod fixed;
pub mod random;
pub mod rng;

use compare::entries;
use compare::script::Answered;
use rng::Rng;
use std::fmt;

#[derive(Clone, Copy, Debug, PartialEq, Eq)]
pub enum Entry {
    Plan,
    /// With the kind of solver.
    Script(u32),
}

/// A plan has a table and a certificate memory of its own; here both are empty.
#[derive(Clone, PartialEq, Eq)]
pub struct Memory {
    pub table: Vec<u8>,
    pub certificate: Vec<u8>,
    pub text: Vec<u8>,
}

pub struct Case {
    pub entry: Entry,
    pub input: Vec<u8>,
    pub memory: Memory,
}

/// What came back, and the memory as it was left.
#[derive(Clone, PartialEq, Eq)]
pub struct Outcome {
    pub returned: i64,
    pub memory: Memory,
}

impl Case {
    /// A script with memories of these lengths, with random content, and with enough for the text.
    pub fn script(rng: &mut Rng, kind: u32, input: Vec<u8>, table: usize, certificate: usize) -> Case {
        let codes = if kind < 2 { 2 } else { 4 };
        let text = entries::text_length(compare::script::lines(&input).len());
        let memory = Memory {
            table: rng.bytes(table, codes),
            certificate: rng.bytes(certificate, 256),
            text: rng.bytes(text, 256),
        };
        Case { entry: Entry::Script(kind), input, memory }
    }

    pub fn plan(rng: &mut Rng, input: Vec<u8>) -> Case {
        let lines = if input.len() > entries::LONGEST_PLAN { 1 } else { compare::script::lines(&input).len() };
        let text = rng.bytes(entries::text_length(lines), 256);
        Case { entry: Entry::Plan, input, memory: Memory { table: Vec::new(), certificate: Vec::new(), text } }
    }

    /// The same case with a text memory of another length.
    pub fn with_text(mut self, rng: &mut Rng, length: usize) -> Case {
        self.memory.text = rng.bytes(length, 256);
        self
    }

    /// What the solver of this crate makes of the case.
    pub fn ours(&self) -> (Outcome, Vec<Answered>) {
        let mut memory = self.memory.clone();
        let (returned, answered) = match self.entry {
            Entry::Plan => entries::plan(&self.input, &mut memory.text),
            Entry::Script(kind) => {
                entries::script(kind, &self.input, &mut memory.table, &mut memory.certificate, &mut memory.text)
            }
        };
        (Outcome { returned, memory }, answered)
    }
}

impl fmt::Display for Case {
    fn fmt(&self, f: &mut fmt::Formatter) -> fmt::Result {
        let Memory { table, certificate, text } = &self.memory;
        match self.entry {
            Entry::Plan => writeln!(f, "a plan of {} bytes, text memory {}:", self.input.len(), text.len())?,
            Entry::Script(kind) => writeln!(
                f,
                "a script of {} bytes, kind {kind}, table {}, certificate memory {}, text memory {}:",
                self.input.len(),
                table.len(),
                certificate.len(),
                text.len()
            )?,
        }
        write!(f, "{}", shown(&self.input))
    }
}

impl Outcome {
    pub fn text(&self) -> &[u8] {
        &self.memory.text[..self.returned.clamp(0, self.memory.text.len() as i64) as usize]
    }

    /// What is not the same in another outcome of the case.
    pub fn difference(&self, other: &Outcome) -> Option<String> {
        if self == other {
            return None;
        }
        let mut lines = String::new();
        for (name, ours, theirs) in [
            ("table", &self.memory.table, &other.memory.table),
            ("certificate memory", &self.memory.certificate, &other.memory.certificate),
            ("text memory", &self.memory.text, &other.memory.text),
        ] {
            if let Some(place) = (0..ours.len()).find(|&place| ours[place] != theirs[place]) {
                lines += &format!("{name}: at {place} stands {} here and {} there\n", ours[place], theirs[place]);
            }
        }
        Some(format!("{lines}here {self}there {other}"))
    }
}

impl fmt::Display for Outcome {
    fn fmt(&self, f: &mut fmt::Formatter) -> fmt::Result {
        write!(f, "returned {}:\n{}", self.returned, shown(self.text()))
    }
}

/// A text with its line ends, every byte that is not plain text shown by its number.
fn shown(text: &[u8]) -> String {
    compare::script::lines(text).iter().map(|line| format!("  {}\n", line.escape_ascii())).collect()
}
