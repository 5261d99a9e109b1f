//! Compares the verified library with the solver of this crate on fixed and on random scripts and plans: the returned
//! value, the text, and the table and certificate memory as they are left. The exit status is 1 where one differs.

mod cases;
mod counts;
#[cfg(not(feature = "linked"))]
mod fields;
#[cfg(feature = "linked")]
mod library;

use cases::rng::Rng;
use cases::Case;
use counts::Counts;
#[cfg(not(feature = "linked"))]
use fields::{difference, AGAINST};
#[cfg(feature = "linked")]
use library::{difference, AGAINST};
use std::process::ExitCode;
use std::time::{Duration, Instant};

const USAGE: &str = "usage: compare [--seed NUMBER] [--seconds NUMBER] [--case NUMBER] [--trace]
  --seed     the seed of the random cases, 1 if not given
  --seconds  how long to go on with random cases, 120 if not given; the fixed ones are run in any case
  --case     run the case with this number alone
  --trace    print the number of each case before it is run";

struct Options {
    seed: u64,
    seconds: u64,
    case: Option<u64>,
    trace: bool,
}

fn options() -> Option<Options> {
    let mut options = Options { seed: 1, seconds: 120, case: None, trace: false };
    let mut arguments = std::env::args().skip(1);
    while let Some(argument) = arguments.next() {
        let mut number = || arguments.next()?.parse::<u64>().ok();
        match argument.as_str() {
            "--seed" => options.seed = number()?,
            "--seconds" => options.seconds = number()?,
            "--case" => options.case = Some(number()?),
            "--trace" => options.trace = true,
            _ => return None,
        }
    }
    Some(options)
}

struct Comparison {
    options: Options,
    counts: Counts,
    /// The number of the next case.
    number: u64,
}

impl Comparison {
    fn run(&mut self, case: Case) -> Result<(), String> {
        let number = self.number;
        self.number += 1;
        if self.options.case.is_some_and(|wanted| wanted != number) {
            return Ok(());
        }
        if self.options.trace {
            println!("case {number}");
        }
        let (ours, answered) = case.ours();
        self.counts.count(&case, ours.returned, &answered);
        match difference(&case, &ours, &answered) {
            None => Ok(()),
            Some(found) => Err(format!("case {number} of seed {} differs: {case}{found}", self.options.seed)),
        }
    }

    fn run_all(&mut self) -> Result<(), String> {
        let start = Instant::now();
        cases::fixed::each(&mut |case| self.run(case))?;
        println!("{} fixed cases in {:.1} s", self.number, start.elapsed().as_secs_f64());
        if let Some(wanted) = self.options.case {
            if wanted >= self.number {
                self.number = wanted;
                return self.run(cases::random::case(&mut Rng::new(self.options.seed, wanted)));
            }
            return Ok(());
        }
        while start.elapsed() < Duration::from_secs(self.options.seconds) {
            self.run(cases::random::case(&mut Rng::new(self.options.seed, self.number)))?;
        }
        let elapsed = start.elapsed().as_secs_f64();
        println!(
            "{} cases in {elapsed:.1} s, {:.0} in a second",
            self.counts.cases(),
            self.counts.cases() as f64 / elapsed
        );
        Ok(())
    }
}

fn main() -> ExitCode {
    let Some(options) = options() else {
        eprintln!("{USAGE}");
        return ExitCode::from(2);
    };
    println!("{AGAINST}, seed {}", options.seed);
    let mut comparison = Comparison { options, counts: Counts::default(), number: 0 };
    let result = comparison.run_all();
    println!("{}", comparison.counts);
    match result {
        Ok(()) => {
            println!("no difference");
            ExitCode::SUCCESS
        }
        Err(difference) => {
            println!("{difference}");
            ExitCode::FAILURE
        }
    }
}
