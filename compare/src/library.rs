//! The verified library, and the comparison with it.

use crate::cases::{Case, Entry, Memory, Outcome};
use compare::script::Answered;

pub const AGAINST: &str = "this solver against the verified library";

mod c {
    extern "C" {
        pub fn tracks_plan(plan: *const u8, plan_len: usize, text: *mut u8, text_len: usize) -> i64;

        pub fn nulla_script(
            kind: u32,
            script: *const u8,
            script_len: usize,
            table: *mut u8,
            table_len: usize,
            certificate: *mut u8,
            certificate_len: usize,
            text: *mut u8,
            text_len: usize,
        ) -> i64;
    }
}

/// Works a plan on a solver over bits with the plain encoding.
fn tracks_plan(plan: &[u8], text: &mut [u8]) -> i64 {
    // SAFETY: each pointer is good for the length that goes with it, and the memory written to is lent for the call.
    unsafe { c::tracks_plan(plan.as_ptr(), plan.len(), text.as_mut_ptr(), text.len()) }
}

/// Works a script on a solver of the kind. The table holds codes of its field.
fn nulla_script(kind: u32, script: &[u8], table: &mut [u8], certificate: &mut [u8], text: &mut [u8]) -> i64 {
    // SAFETY: as above.
    unsafe {
        c::nulla_script(
            kind,
            script.as_ptr(),
            script.len(),
            table.as_mut_ptr(),
            table.len(),
            certificate.as_mut_ptr(),
            certificate.len(),
            text.as_mut_ptr(),
            text.len(),
        )
    }
}

/// Memory with bytes before and after it that must stay.
struct Guarded {
    bytes: Vec<u8>,
}

impl Guarded {
    const GUARD: [u8; 64] = [0xA5; 64];

    fn new(content: &[u8]) -> Guarded {
        Guarded { bytes: [&Self::GUARD, content, &Self::GUARD].concat() }
    }

    fn content(&mut self) -> &mut [u8] {
        let end = self.bytes.len() - Self::GUARD.len();
        &mut self.bytes[Self::GUARD.len()..end]
    }

    /// The content, where the bytes around it are as they were.
    fn end(mut self) -> Option<Vec<u8>> {
        let whole = self.bytes.starts_with(&Self::GUARD) && self.bytes.ends_with(&Self::GUARD);
        whole.then(|| self.content().to_vec())
    }
}

/// What the library makes of the case; none where it wrote beside the memory.
fn theirs(case: &Case) -> Option<Outcome> {
    let mut table = Guarded::new(&case.memory.table);
    let mut certificate = Guarded::new(&case.memory.certificate);
    let mut text = Guarded::new(&case.memory.text);
    let returned = match case.entry {
        Entry::Plan => tracks_plan(&case.input, text.content()),
        Entry::Script(kind) => nulla_script(kind, &case.input, table.content(), certificate.content(), text.content()),
    };
    let memory = Memory { table: table.end()?, certificate: certificate.end()?, text: text.end()? };
    Some(Outcome { returned, memory })
}

/// What is not the same in the library's outcome.
pub fn difference(case: &Case, ours: &Outcome, _: &[Answered]) -> Option<String> {
    match theirs(case) {
        None => Some("the library wrote beside the memory\n".to_string()),
        Some(theirs) => ours.difference(&theirs),
    }
}
