//! Boards and calls to try.

use crate::calls::Call;
use crate::guarded::Lending;
use crate::play::Play;
use crate::random::Random;

/// Each two of n lamps are wired with so many percent of chance.
pub fn some_wires(n: usize, percent: usize, random: &mut Random) -> Vec<(u16, u16)> {
    let mut wires = all_wires(n);
    wires.retain(|_| random.percent(percent));
    wires
}

/// Every lamp is wired with every other.
pub fn all_wires(n: usize) -> Vec<(u16, u16)> {
    let n = n as u16;
    (0..n)
        .flat_map(|i| (i + 1..n).map(move |j| (i, j)))
        .collect()
}

/// So many wires between any two lamps; the same may come and go.
pub fn few_wires(n: usize, count: usize, random: &mut Random) -> Vec<(u16, u16)> {
    (0..count).map(|_| some_wire(n, random)).collect()
}

/// Two different lamps.
pub fn some_wire(n: usize, random: &mut Random) -> (u16, u16) {
    let i = random.below(n);
    let j = (i + random.between(1, n - 1)) % n;
    (i as u16, j as u16)
}

/// Lamps in rows of `width`, each wired to its neighbours; the last row may be shorter.
pub fn grid(n: usize, width: usize) -> Vec<(u16, u16)> {
    let mut wires = vec![];
    for i in 0..n {
        if i % width + 1 < width && i + 1 < n {
            wires.push((i as u16, i as u16 + 1));
        }
        if i + width < n {
            wires.push((i as u16, (i + width) as u16));
        }
    }
    wires
}

/// Each lamp is on with so many percent of chance.
pub fn some_lit(n: usize, percent: usize, random: &mut Random) -> Vec<bool> {
    (0..n).map(|_| random.percent(percent)).collect()
}

/// A board with something on it, and steps made.
pub fn some_board(n: usize, lending: Lending, random: &mut Random) -> Result<Play, String> {
    let wires = if n > 1 {
        few_wires(n, 2 * n, random)
    } else {
        vec![]
    };
    let lit = some_lit(n, 50, random);
    let mut play = Play::with(n, &wires, &lit, lending, random)?;
    play.say(Call::Out)?;
    Ok(play)
}

/// A call, mostly one that is not refused.
pub fn some_call(n: usize, random: &mut Random) -> Vec<u8> {
    match random.below(20) {
        0..=2 => bad_call(n, random),
        _ => good_call(n, random).bytes(),
    }
}

fn good_call(n: usize, random: &mut Random) -> Call {
    let lamp = random.below(n) as u16;
    match random.below(20) {
        0..=6 if n > 1 => {
            let (i, j) = some_wire(n, random);
            Call::Wire(i, j)
        }
        0..=9 => Call::Turn(lamp),
        10..=12 => Call::Press(lamp),
        13 => Call::Lit,
        14..=16 => Call::Out,
        _ => Call::Ways,
    }
}

/// Bytes that are mostly refused: lamps that aren't there, a wire from a lamp to itself, calls that
/// are cut off or too long, garbage.
fn bad_call(n: usize, random: &mut Random) -> Vec<u8> {
    let there = random.below(n) as u16;
    let any = random.between(n, 65_535);
    let gone = random.pick(&[n, n + 1, n + 255, n + 256, 1_024, 65_535, any]) as u16;
    let mut bytes = match random.below(9) {
        0 => Call::Wire(there, gone),
        1 => Call::Wire(gone, there),
        2 => Call::Wire(gone, gone),
        3 => Call::Turn(gone),
        4 => Call::Press(gone),
        5 => Call::Wire(there, there),
        6 => {
            let count = random.below(8);
            return random.bytes(count);
        }
        _ => good_call(n, random),
    }
    .bytes();
    match random.below(4) {
        0 => bytes.truncate(random.below(bytes.len())),
        1 => {
            let more = random.between(1, 4);
            bytes.extend(random.bytes(more));
        }
        _ => {}
    }
    bytes
}
