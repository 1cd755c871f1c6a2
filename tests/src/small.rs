//! Boards so small that all sets of presses can be gone through.

use crate::Settings;
use crate::brute::{self, Survey};
use crate::calls::Call;
use crate::making::{all_wires, some_call, some_lit, some_wire, some_wires};
use crate::play::Play;
use crate::random::Random;
use crate::wall::Wall;

/// All wirings, with every picture on a board of its own. The wires come as (i, j) and as (j, i).
pub fn every_board(settings: &Settings) -> Result<u64, String> {
    let mut random = Random::new(1);
    let mut answers = 0;
    for n in 1..=4 {
        for wiring in 0..1_usize << all_wires(n).len() {
            for picture in 0..1_usize << n {
                let wires = chosen(all_wires(n), wiring);
                let turned = wires.iter().map(|&(i, j)| (j, i)).collect();
                let lit: Vec<bool> = (0..n).map(|i| picture >> i & 1 == 1).collect();
                for wires in [wires, turned] {
                    let lending = settings.lending(&mut random);
                    let mut play = Play::with(n, &wires, &lit, lending, &mut random)?;
                    for call in [Call::Lit, Call::Out, Call::Ways] {
                        play.say(call)?;
                        answers += 1;
                    }
                }
            }
        }
    }
    Ok(answers)
}

/// All wirings of five lamps; the pictures come one after another on the same board, each from the
/// one before by a turn.
pub fn every_board_of_five(settings: &Settings) -> Result<u64, String> {
    let n = 5;
    let mut random = Random::new(2);
    let mut answers = 0;
    for wiring in (0..1_usize << all_wires(n).len()).step_by(settings.choose(1, 20)) {
        let wires = chosen(all_wires(n), wiring);
        let lending = settings.lending(&mut random);
        let mut play = Play::with(n, &wires, &[false; 5], lending, &mut random)?;
        for step in 1..=1_u32 << n {
            for call in [Call::Ways, Call::Out, Call::Lit] {
                play.say(call)?;
                answers += 1;
            }
            let lamp = step.trailing_zeros() as u16;
            if usize::from(lamp) < n {
                play.say(Call::Turn(lamp))?;
            }
        }
    }
    Ok(answers)
}

/// Random lists of calls, good ones and bad ones. At times the memory is copied elsewhere and taken
/// up there.
pub fn random_calls(settings: &Settings) -> Result<u64, String> {
    let seed = 0x5EED_0000;
    let mut answers = 0;
    for board in 0..settings.choose(2_000, 300) as u64 {
        let mut random = Random::new(seed + board);
        let mut run = || {
            let n = random.between(1, 12);
            let density = random.pick(&[0, 20, 50, 80, 100]);
            let wires = some_wires(n, density, &mut random);
            let lit = some_lit(n, 50, &mut random);
            let lending = settings.lending(&mut random);
            let mut play = Play::with(n, &wires, &lit, lending, &mut random)?;
            for _ in 0..60 {
                play.ask(&some_call(n, &mut random))?;
                answers += 1;
                if random.percent(3) {
                    play.desk = play.desk.clone();
                }
            }
            Ok(())
        };
        run().map_err(|why: String| format!("board {board}: {why}"))?;
    }
    Ok(answers)
}

/// From sixteen lamps on one wire marks no more than an eighth of the rows, and the steps are kept
/// from answer to answer. All sets are still gone through.
pub fn wire_by_wire(settings: &Settings) -> Result<u64, String> {
    let seed = 0x5EED_1000;
    let mut answers = 0;
    for board in 0..settings.choose(300, 8) as u64 {
        let mut random = Random::new(seed + board);
        let mut run = || {
            let n = random.between(16, settings.choose(18, 16));
            let density = random.pick(&[0, 10, 50, 90, 100]);
            let wires = some_wires(n, density, &mut random);
            let lit = some_lit(n, 50, &mut random);
            let lending = settings.lending(&mut random);
            let mut play = Play::with(n, &wires, &lit, lending, &mut random)?;
            for _ in 0..12 {
                play.say(Call::Out)?;
                play.say(Call::Ways)?;
                answers += 2;
                let (i, j) = some_wire(n, &mut random);
                play.say(Call::Wire(i, j))?;
                match random.below(4) {
                    0 => drop(play.say(Call::Turn(i))?),
                    1 => play.picture_by_presses(&mut random)?,
                    _ => {}
                }
            }
            Ok(())
        };
        run().map_err(|why: String| format!("board {board}: {why}"))?;
    }
    Ok(answers)
}

/// Where fewest ends: 65,536 ways, that is 16 quiet sets that all others are sums of.
pub fn border(settings: &Settings) -> Result<u64, String> {
    let mut random = Random::new(0x5EED_2000);
    let mut answers = 0;
    // All wired with all: 17 lamps have 2^16 quiet sets, 18 have 2^17.
    for n in 16..=settings.choose(20, 18) {
        let lending = settings.lending(&mut random);
        let off = vec![false; n];
        let mut play = Play::with(n, &all_wires(n), &off, lending, &mut random)?;
        // All off, one lamp on, some on, and all on.
        for step in 0..=n {
            if step <= 1 || step == n / 2 || step == n {
                play.say(Call::Out)?;
                play.say(Call::Ways)?;
                answers += 2;
            }
            if step < n {
                play.say(Call::Turn(step as u16))?;
            }
        }
    }
    // Pairs of wired lamps side by side: each adds one to the exponent.
    for pairs in 15..=17 {
        let n = 2 * pairs;
        let wires: Vec<(u16, u16)> = (0..pairs as u16).map(|k| (2 * k, 2 * k + 1)).collect();
        for picture in 0..settings.choose(8, 2) {
            // Both lamps of a pair are on or both off, but for one pair in half of the pictures.
            let mut lit: Vec<bool> = some_lit(pairs, 50, &mut random)
                .into_iter()
                .flat_map(|on| [on, on])
                .collect();
            if picture % 2 == 1 {
                lit[random.below(n)] ^= true;
            }
            let known = lit.chunks(2).map(pair).reduce(|all, one| all.beside(&one));
            let lending = settings.lending(&mut random);
            let mut play = Play::with(n, &wires, &lit, lending, &mut random)?;
            play.ask_knowing(&Call::Out.bytes(), known.as_ref())?;
            play.ask_knowing(&Call::Ways.bytes(), known.as_ref())?;
            answers += 2;
        }
    }
    Ok(answers)
}

/// What there is to know of two lamps that are wired.
fn pair(lit: &[bool]) -> Survey {
    let mut wall = Wall::new(2);
    wall.perform(Call::Wire(0, 1));
    wall.lit = lit.to_vec();
    brute::survey(&wall)
}

/// Those of the row whose bit is set.
fn chosen<T>(row: Vec<T>, bits: usize) -> Vec<T> {
    row.into_iter()
        .enumerate()
        .filter(|(k, _)| bits >> k & 1 == 1)
        .map(|(_, one)| one)
        .collect()
}
