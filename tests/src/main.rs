//! Hostile tests of the library through its C interface: include/lights.h and docs/NUMBERS.md.
//!
//! `wall-tests [small] [bare]`: `small` runs a small part of each test, and with `bare` slices have
//! no guard elements around them, so that a memory checker sees each read and write outside.

#![deny(unsafe_code)]

mod brute;
mod calls;
mod guarded;
mod hostile;
mod large;
#[allow(unsafe_code)]
mod lights;
mod making;
mod play;
mod random;
mod refusals;
mod right;
mod small;
mod wall;

use guarded::Lending;
use random::Random;
use std::panic::catch_unwind;
use std::process::ExitCode;

/// How a run goes.
pub struct Settings {
    small: bool,
    pub guard: usize,
}

impl Settings {
    fn read(words: impl Iterator<Item = String>) -> Option<Self> {
        let mut settings = Settings {
            small: false,
            guard: 32,
        };
        for word in words {
            match word.as_str() {
                "small" => settings.small = true,
                "bare" => settings.guard = 0,
                _ => return None,
            }
        }
        Some(settings)
    }

    /// The first in a whole run, the second in a small one.
    pub fn choose<T>(&self, whole: T, small: T) -> T {
        if self.small { small } else { whole }
    }

    /// Slices that are often longer than is asked for.
    pub fn lending(&self, random: &mut Random) -> Lending {
        Lending {
            guard: self.guard,
            spare: random.pick(&[0, 0, 1, 5, 70]),
        }
    }
}

/// Returns how many answers were right, or what was wrong.
type Test = fn(&Settings) -> Result<u64, String>;

const TESTS: [(&str, Test); 14] = [
    (
        "all boards of up to 4 lamps, every picture",
        small::every_board,
    ),
    (
        "all boards of 5 lamps, picture after picture",
        small::every_board_of_five,
    ),
    (
        "random calls on boards of up to 12 lamps",
        small::random_calls,
    ),
    (
        "boards of 16 to 18 lamps, wire by wire",
        small::wire_by_wire,
    ),
    ("boards around 65,536 ways", small::border),
    ("calls that are refused", refusals::bytes_of_calls),
    ("slices that are too short", refusals::too_short),
    (
        "numbers of lamps that no board has",
        refusals::no_such_board,
    ),
    ("boards of every size", refusals::every_size),
    ("memory that is spoilt", hostile::spoilt_memory),
    (
        "memory lent as that of a smaller board",
        hostile::lent_as_smaller,
    ),
    ("large boards of small parts", large::side_by_side),
    ("large boards, changed and anew", large::changed_and_anew),
    ("all on can be put out", large::all_on),
];

fn main() -> ExitCode {
    let Some(settings) = Settings::read(std::env::args().skip(1)) else {
        eprintln!("usage: wall-tests [small] [bare]");
        return ExitCode::from(2);
    };
    let (mut passed, mut failed) = (0, 0);
    for (name, test) in TESTS {
        let broke = "the test itself broke off".to_string();
        match catch_unwind(|| test(&settings)).unwrap_or(Err(broke)) {
            Ok(answers) => {
                println!("ok      {name}: {} answers", with_commas(answers));
                passed += 1;
            }
            Err(why) => {
                println!("FAILED  {name}: {why}");
                failed += 1;
            }
        }
    }
    println!("{passed} passed, {failed} failed");
    if failed == 0 {
        ExitCode::SUCCESS
    } else {
        ExitCode::FAILURE
    }
}

fn with_commas(number: u64) -> String {
    let digits = number.to_string();
    let mut said = String::new();
    for (k, digit) in digits.chars().enumerate() {
        if k > 0 && (digits.len() - k).is_multiple_of(3) {
            said.push(',');
        }
        said.push(digit);
    }
    said
}
