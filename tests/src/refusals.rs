//! What must be turned away, and leaves everything as it was.

use crate::Settings;
use crate::calls::{Call, hex};
use crate::guarded::Lending;
use crate::lights::{self, Desk, NO_BOARD, Slice, TOO_SHORT};
use crate::making::{some_board, some_call};
use crate::play::Play;
use crate::random::Random;

/// Every first byte with every length up to eight, lamps around every border, and calls whose
/// length is that of a good one plus 65,536.
pub fn bytes_of_calls(settings: &Settings) -> Result<u64, String> {
    let mut random = Random::new(0x5EED_3000);
    let mut answers = 0;
    let sizes: &[usize] = settings.choose(&[1, 2, 5, 8, 64, 65, 257, 1_024], &[1, 5, 65, 257]);
    for &n in sizes {
        let mut play = some_board(n, settings.lending(&mut random), &mut random)?;
        for bytes in hostile_bytes(n, &mut random) {
            play.ask(&bytes)?;
            answers += 1;
        }
        play.layout()?;
    }
    Ok(answers)
}

fn hostile_bytes(n: usize, random: &mut Random) -> Vec<Vec<u8>> {
    let mut calls = vec![vec![]];
    for first in 0..=255 {
        for length in 0..8 {
            let mut bytes = vec![first];
            bytes.extend(random.bytes(length));
            calls.push(bytes);
        }
    }
    let edges = [
        0,
        1,
        n - 1,
        n,
        n + 1,
        255,
        256,
        1_023,
        1_024,
        1_025,
        32_768,
        65_535,
    ];
    let edges = edges.map(|lamp| lamp as u16);
    for i in edges {
        calls.push(Call::Turn(i).bytes());
        calls.push(Call::Press(i).bytes());
        for j in edges {
            calls.push(Call::Wire(i, j).bytes());
        }
    }
    for call in [
        Call::Wire(0, 0),
        Call::Turn(0),
        Call::Press(0),
        Call::Lit,
        Call::Out,
        Call::Ways,
    ] {
        let bytes = call.bytes();
        for length in [65_535, 65_536, 65_536 + bytes.len(), 131_072 + bytes.len()] {
            let mut long = bytes.clone();
            long.resize(length, 0);
            calls.push(long);
        }
    }
    calls
}

/// Each slice at each length that is too short, and several at once.
pub fn too_short(settings: &Settings) -> Result<u64, String> {
    let mut random = Random::new(0x5EED_4000);
    let mut answers = 0;
    let sizes: &[usize] = settings.choose(&[1, 2, 5, 63, 64, 65, 130, 1_024], &[1, 5, 65, 130]);
    for &n in sizes {
        let guard = settings.guard;
        let mut desk = some_board(n, Lending { guard, spare: 3 }, &mut random)?.desk;
        let before = desk.clone();
        for slice in Slice::MEMORY.into_iter().chain([Slice::Answer]) {
            for length in short_lengths(slice.asked(n)) {
                desk.lend(slice, length);
                answers += all_refused(&mut desk, &before, slice != Slice::Answer, &mut random)
                    .map_err(|why| format!("{n} lamps, {length} of {slice:?}: {why}"))?;
            }
            desk.lend(slice, slice.asked(n));
        }
        for _ in 0..settings.choose(200, 20) {
            let short = random.pick(&Slice::MEMORY);
            let mut lengths = vec![];
            for slice in Slice::MEMORY.into_iter().chain([Slice::Answer]) {
                let asked = slice.asked(n);
                let most = if slice == short { asked - 1 } else { asked + 3 };
                let any = random.below(most + 1);
                let length = random.pick(&[0, most / 2, most, any]);
                desk.lend(slice, length);
                lengths.push(length);
            }
            answers += all_refused(&mut desk, &before, true, &mut random)
                .map_err(|why| format!("{n} lamps, lengths {lengths:?}: {why}"))?;
        }
    }
    Ok(answers)
}

/// Every length below what is asked; for long slices those near both ends and some between.
fn short_lengths(asked: usize) -> Vec<usize> {
    (0..asked)
        .filter(|k| asked <= 400 || *k < 40 || asked - k <= 40 || k % 1_009 == 0)
        .collect()
}

/// Opening (if the memory itself is too short) and calls of all kinds are refused by 3 at 1, and
/// not an element is written.
fn all_refused(
    desk: &mut Desk,
    before: &Desk,
    opens_too: bool,
    random: &mut Random,
) -> Result<u64, String> {
    let n = desk.lamps();
    let mut refused = 0;
    if opens_too {
        expect("open", desk.open_as(n as u64), TOO_SHORT)?;
        desk.same_as(before)?;
        refused += 1;
    }
    for bytes in [vec![4], vec![], some_call(n, random), some_call(n, random)] {
        let returned = desk.call_as(n as u64, &bytes)?;
        expect(&format!("call {}", hex(&bytes)), returned, TOO_SHORT)?;
        desk.same_as(before)
            .map_err(|why| format!("call {}: {why}", hex(&bytes)))?;
        refused += 1;
    }
    Ok(refused)
}

/// Numbers of lamps that no board has, some of which are good ones modulo 2^16 or 2^32.
pub fn no_such_board(settings: &Settings) -> Result<u64, String> {
    let mut random = Random::new(0x5EED_5000);
    let mut answers = 0;
    let numbers = [
        0,
        1_025,
        1_026,
        2_048,
        32_768,
        65_535,
        65_536,
        65_537,
        65_536 + 5,
        65_536 + 1_024,
        1 << 32,
        (1 << 32) + 5,
        (1 << 48) + 5,
        1 << 63,
        (1 << 63) + 5,
        u64::MAX - 1,
        u64::MAX,
    ];
    let sizes: &[usize] = settings.choose(&[1, 5, 1_024], &[1, 5]);
    for &n in sizes {
        let mut desk = some_board(n, settings.lending(&mut random), &mut random)?.desk;
        let before = desk.clone();
        for all in [true, false] {
            if !all {
                for slice in Slice::MEMORY.into_iter().chain([Slice::Answer]) {
                    desk.lend(slice, 0);
                }
            }
            for lamps in numbers {
                expect(&format!("words of {lamps}"), lights::words(lamps), NO_BOARD)?;
                expect(&format!("open {lamps}"), desk.open_as(lamps), NO_BOARD)?;
                desk.same_as(&before)
                    .map_err(|why| format!("open {lamps}: {why}"))?;
                answers += 2;
                for bytes in [vec![4], vec![0, 0, 0, 1, 0], vec![1, 0, 0], vec![]] {
                    let returned = desk.call_as(lamps, &bytes)?;
                    let called = format!("call {} with {lamps} lamps", hex(&bytes));
                    expect(&called, returned, NO_BOARD)?;
                    desk.same_as(&before)
                        .map_err(|why| format!("{called}: {why}"))?;
                    answers += 1;
                }
            }
        }
    }
    Ok(answers)
}

/// Boards of every size can be opened in just the memory that is asked for.
pub fn every_size(settings: &Settings) -> Result<u64, String> {
    let mut random = Random::new(0x5EED_6000);
    let mut answers = 0;
    for n in 1..=1_024 {
        let asked = Slice::Wires.asked(n) as i64;
        expect(&format!("words of {n}"), lights::words(n as u64), asked)?;
        answers += 1;
        if n % settings.choose(1, 101) == 0 {
            let guard = settings.guard;
            let mut play = Play::open(n, Lending { guard, spare: 0 }, &mut random)?;
            play.say(Call::Turn(n as u16 - 1))?;
            play.say(Call::Lit)?;
            play.layout()?;
            answers += 3;
        }
    }
    for lamps in (1_025..70_000).step_by(settings.choose(1, 97)) {
        expect(&format!("words of {lamps}"), lights::words(lamps), NO_BOARD)?;
        answers += 1;
    }
    Ok(answers)
}

fn expect(called: &str, returned: i64, right: i64) -> Result<(), String> {
    if returned == right {
        Ok(())
    } else {
        Err(format!(
            "{called} returned {returned}; right would be {right}"
        ))
    }
}
