//! What is right, found by going through all sets of presses and all sets of lamps.

use crate::wall::Wall;

/// The most lamps of a board that is gone through.
pub const MOST: usize = 20;

/// What there is to know of a board.
#[derive(Clone, Debug)]
pub struct Survey {
    /// k if 2^k sets of presses put all out, nothing if none does.
    pub ways: Option<u32>,
    /// The fewest presses that put all out, if any do.
    pub fewest: Option<usize>,
    /// k if there are 2^k quiet sets.
    pub quiet: u32,
    /// The fewest lamps of a quiet set of which an odd number is lit, if there is one.
    pub proof: Option<usize>,
}

impl Survey {
    /// Two boards side by side, without a wire between them: a way is one for each, and a set that
    /// shows that there is none shows it on one of them already.
    pub fn beside(&self, other: &Survey) -> Survey {
        Survey {
            ways: self.ways.zip(other.ways).map(|(a, b)| a + b),
            fewest: self.fewest.zip(other.fewest).map(|(a, b)| a + b),
            quiet: self.quiet + other.quiet,
            proof: self.proof.into_iter().chain(other.proof).min(),
        }
    }
}

/// Goes through all sets of a small board.
pub fn survey(wall: &Wall) -> Survey {
    assert!(wall.lamps() <= MOST);
    let buttons: Vec<u32> = (0..wall.lamps()).map(|i| mask(wall.button(i))).collect();
    let lit = mask(&wall.lit);
    let (ways, fewest) = all_presses(&buttons, lit);
    let (quiet, proof) = all_quiet(&buttons, lit);
    Survey {
        ways: (ways > 0).then(|| power_of_two(ways)),
        fewest,
        quiet: power_of_two(quiet),
        proof,
    }
}

/// How many sets of presses put all out, and the fewest presses of one. The sets come in the order
/// of the Gray code: each differs from the one before by one button.
fn all_presses(buttons: &[u32], lit: u32) -> (u64, Option<usize>) {
    let (mut ways, mut fewest) = (0, None);
    let (mut presses, mut now): (u32, u32) = (0, lit);
    for step in 1..=1_u32 << buttons.len() {
        if now == 0 {
            let count = presses.count_ones() as usize;
            ways += 1;
            fewest = Some(fewest.map_or(count, |least: usize| least.min(count)));
        }
        let button = step.trailing_zeros() as usize;
        if button < buttons.len() {
            presses ^= 1 << button;
            now ^= buttons[button];
        }
    }
    (ways, fewest)
}

/// How many quiet sets there are, and the fewest lamps of one of which an odd number is lit.
fn all_quiet(buttons: &[u32], lit: u32) -> (u64, Option<usize>) {
    let even = |a: u32, b: u32| (a & b).count_ones().is_multiple_of(2);
    let (mut quiet, mut proof) = (0, None);
    for set in 0..1_u32 << buttons.len() {
        if buttons.iter().all(|&button| even(button, set)) {
            quiet += 1;
            if !even(lit, set) {
                let count = set.count_ones() as usize;
                proof = Some(proof.map_or(count, |least: usize| least.min(count)));
            }
        }
    }
    (quiet, proof)
}

fn mask(set: &[bool]) -> u32 {
    set.iter()
        .rev()
        .fold(0, |mask, &on| mask << 1 | u32::from(on))
}

fn power_of_two(count: u64) -> u32 {
    assert!(count.is_power_of_two(), "{count} is no power of two");
    count.trailing_zeros()
}
