//! Memory that holds no board at all: answers need not be right, but no harm is done.

use crate::Settings;
use crate::calls::{Answer, Call, Kind, hex, read_answer, rule};
use crate::lights::Desk;
use crate::making::{some_board, some_call};
use crate::random::Random;

/// Calls on spoilt memory: nothing else is written, answers can be read, refusals are as ever.
pub fn spoilt_memory(settings: &Settings) -> Result<u64, String> {
    let seed = 0x5EED_7000;
    let mut answers = 0;
    let sizes: &[(usize, usize)] = settings.choose(
        &[
            (1, 40),
            (2, 40),
            (5, 60),
            (16, 60),
            (17, 60),
            (63, 40),
            (64, 40),
            (65, 40),
            (130, 40),
            (300, 20),
            (1_000, 8),
            (1_024, 8),
        ],
        &[(1, 10), (5, 20), (17, 20), (65, 10), (130, 10), (1_024, 1)],
    );
    for &(n, rounds) in sizes {
        for round in 0..rounds {
            let mut random = Random::new(seed + (n * 1_000 + round) as u64);
            answers += spoil_and_call(settings, n, &mut random)
                .map_err(|why| format!("{n} lamps, round {round}: {why}"))?;
        }
    }
    Ok(answers)
}

/// The memory of a board lent as that of a smaller one: no more than that asks for is written.
pub fn lent_as_smaller(settings: &Settings) -> Result<u64, String> {
    let mut random = Random::new(0x5EED_B000);
    let mut answers = 0;
    let sizes: &[usize] = settings.choose(&[2, 5, 17, 64, 65, 130, 300, 1_024], &[5, 65, 130]);
    for &n in sizes {
        for _ in 0..settings.choose(20, 4) {
            let mut desk = some_board(n, settings.lending(&mut random), &mut random)?.desk;
            for _ in 0..10 {
                let lamps = random.between(1, n);
                let bytes = some_call(lamps, &mut random);
                desk.call_on(lamps, &bytes)
                    .and_then(|said| sane(&bytes, &said, lamps))
                    .map_err(|why| format!("{n} lamps as {lamps}, {}: {why}", hex(&bytes)))?;
                answers += 1;
            }
        }
    }
    Ok(answers)
}

fn spoil_and_call(settings: &Settings, n: usize, random: &mut Random) -> Result<u64, String> {
    let mut desk = some_board(n, settings.lending(random), random)?.desk;
    let spoilt = spoil(&mut desk, random);
    let mut answers = 0;
    for k in 0..30 {
        // Out and ways come first, on memory as spoilt as can be.
        let bytes = match k {
            0 => Call::Out.bytes(),
            1 => Call::Ways.bytes(),
            _ => some_call(n, random),
        };
        desk.call(&bytes)
            .and_then(|said| sane(&bytes, &said, n))
            .map_err(|why| format!("{spoilt}, call {k}, {}: {why}", hex(&bytes)))?;
        answers += 1;
        if k % 10 == 9 {
            spoil(&mut desk, random);
        }
    }
    Ok(answers)
}

/// Spoils one slice of the six, or all of them.
fn spoil(desk: &mut Desk, random: &mut Random) -> String {
    let n = desk.lamps();
    let [way, which] = [random.below(6), random.below(8)];
    let word = |random: &mut Random| match way {
        0 => u64::MAX,
        1 => 0,
        2 => 1 << random.below(64),
        _ => random.word(),
    };
    for (k, slice) in desk.words_mut().into_iter().enumerate() {
        if which == k || which >= 6 {
            slice.asked_mut().fill_with(|| word(random));
        }
    }
    if which >= 5 {
        desk.pivots.asked_mut().fill_with(|| match way {
            0 => u16::MAX,
            1 => 0,
            2 => n as u16,
            3 => random.below(n) as u16,
            4 => random.below(2 * n) as u16,
            _ => random.word() as u16,
        });
    }
    format!("spoilt by {way} in {which}")
}

/// The answer is of a kind that fits the call.
fn sane(bytes: &[u8], said: &[u8], n: usize) -> Result<(), String> {
    let answer = read_answer(said, n)
        .map_err(|right| format!("answered {}; it should be {right}", hex(said)))?;
    let fits = match (rule(bytes, n), &answer) {
        (Err(right), Answer::Refused(refusal)) => right == *refusal,
        (Ok(Call::Wire(i, _) | Call::Turn(i) | Call::Press(i)), Answer::Number(k)) => i == *k,
        (Ok(Call::Lit), Answer::Set(kind, _)) => *kind == Kind::Lit,
        (Ok(Call::Out), Answer::Set(kind, _)) => *kind != Kind::Lit,
        (Ok(Call::Ways), Answer::Number(k)) => usize::from(*k) <= n + 1,
        _ => false,
    };
    if fits {
        Ok(())
    } else {
        Err(format!("answered {}, which does not fit", hex(said)))
    }
}
