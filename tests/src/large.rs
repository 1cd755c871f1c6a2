//! Boards with too many lamps to go through all sets. Answers are checked by pressing.

use crate::Settings;
use crate::brute::{self, Survey};
use crate::calls::{Answer, Call, Kind, bits};
use crate::making::{few_wires, grid, some_lit, some_wire, some_wires};
use crate::play::Play;
use crate::random::Random;
use crate::right::{LIMIT, how_many};
use crate::wall::Wall;

/// Small boards side by side, their lamps mixed. All sets of each part are gone through, so what is
/// fewest on the whole is known, whatever its size.
pub fn side_by_side(settings: &Settings) -> Result<u64, String> {
    let seed = 0x5EED_8000;
    let mut answers = 0;
    let sizes: &[usize] = settings.choose(
        &[
            16, 20, 32, 33, 48, 63, 64, 65, 80, 96, 127, 128, 129, 200, 256, 300, 500, 1_000, 1_024,
        ],
        &[16, 33, 65, 128, 1_000],
    );
    for (board, &n) in sizes
        .iter()
        .cycle()
        .take(settings.choose(8, 1) * sizes.len())
        .enumerate()
    {
        let mut random = Random::new(seed + board as u64);
        answers += change_parts(settings, n, &mut random)
            .map_err(|why| format!("board {board}: {why}"))?;
    }
    Ok(answers)
}

/// A small board among others.
struct Part {
    wall: Wall,
    /// The numbers that its lamps have on the whole.
    lamps: Vec<u16>,
    known: Survey,
}

impl Part {
    fn new(lamps: Vec<u16>, random: &mut Random) -> Self {
        let mut wall = Wall::new(lamps.len());
        let density = random.pick(&[30, 50, 100]);
        for (i, j) in some_wires(lamps.len(), density, random) {
            wall.perform(Call::Wire(i, j));
        }
        // Mostly something that can be put out.
        let presses = some_lit(lamps.len(), 50, random);
        wall.lit = wall.lit_after(&presses);
        let known = brute::survey(&wall);
        Part { wall, lamps, known }
    }

    /// The call as it is on the whole, of one that is made on this part.
    fn whole(&self, call: Call) -> Call {
        let lamp = |i: u16| self.lamps[usize::from(i)];
        match call {
            Call::Wire(i, j) => Call::Wire(lamp(i), lamp(j)),
            Call::Turn(i) => Call::Turn(lamp(i)),
            Call::Press(i) => Call::Press(lamp(i)),
            other => other,
        }
    }

    /// Makes a call on this part and on the whole.
    fn say(&mut self, call: Call, play: &mut Play) -> Result<(), String> {
        play.say(self.whole(call))?;
        self.wall.perform(call);
        self.known = brute::survey(&self.wall);
        Ok(())
    }
}

/// So many lamps in parts of up to seven. The exponent of the quiet sets of the whole comes up to
/// `quiet`, so that the border at 65,536 is met; a lamp alone adds nothing to it.
fn parts(n: usize, quiet: u32, random: &mut Random) -> Vec<Part> {
    let mut numbers: Vec<u16> = (0..n as u16).collect();
    random.shuffle(&mut numbers);
    let (mut parts, mut sum) = (vec![], 0);
    while !numbers.is_empty() {
        let size = random.between(1, 7).min(numbers.len());
        let mut part = Part::new(numbers[..size].to_vec(), random);
        if sum + part.known.quiet > quiet {
            part = Part::new(numbers[..1].to_vec(), random);
        }
        sum += part.known.quiet;
        numbers.drain(..part.lamps.len());
        parts.push(part);
    }
    parts
}

fn change_parts(settings: &Settings, n: usize, random: &mut Random) -> Result<u64, String> {
    let quiet = random.pick(&[0, 3, 10, 14, 16, 16, 17, 18, 40]);
    let mut parts = parts(n, quiet, random);
    let mut play = Play::open(n, settings.lending(random), random)?;
    for part in &parts {
        for (i, j) in part.wall.wires() {
            play.say(part.whole(Call::Wire(i, j)))?;
        }
        for (&lamp, &on) in part.lamps.iter().zip(&part.wall.lit) {
            if on {
                play.say(Call::Turn(lamp))?;
            }
        }
    }
    let mut answers = 0;
    for _ in 0..settings.choose(16, 4) {
        if random.percent(70) {
            for part in parts.iter_mut().filter(|part| part.known.ways.is_none()) {
                easy_picture(part, &mut play)?;
            }
        }
        let known = parts
            .iter()
            .map(|part| part.known.clone())
            .reduce(|all, one| all.beside(&one));
        play.ask_knowing(&Call::Out.bytes(), known.as_ref())?;
        play.ask_knowing(&Call::Ways.bytes(), known.as_ref())?;
        play.layout()?;
        answers += 2;
        for _ in 0..random.pick(&[1, 1, 2, n / 16, n / 16 + 1]) {
            let which = random.below(parts.len());
            let part = &mut parts[which];
            let lamps = part.lamps.len();
            let lamp = random.below(lamps) as u16;
            let call = match random.below(10) {
                0..=7 if lamps > 1 => {
                    let (i, j) = some_wire(lamps, random);
                    Call::Wire(i, j)
                }
                0..=8 => Call::Press(lamp),
                _ => Call::Turn(lamp),
            };
            part.say(call, &mut play)?;
        }
    }
    Ok(answers)
}

/// Turns off all lamps of a part and presses a button: that can be put out.
fn easy_picture(part: &mut Part, play: &mut Play) -> Result<(), String> {
    for i in 0..part.lamps.len() {
        if part.wall.lit[i] {
            part.say(Call::Turn(i as u16), play)?;
        }
    }
    part.say(Call::Press(0), play)
}

/// Grids and random wires, which are changed between answers. After each change a board that is
/// opened anew must say the same: the same kind, as many ways, as many presses or lamps.
pub fn changed_and_anew(settings: &Settings) -> Result<u64, String> {
    let mut answers = 0;
    let sizes: &[(usize, usize)] = settings.choose(
        &[(64, 8), (65, 5), (128, 16), (1_000, 40), (1_024, 32)],
        &[(64, 8), (65, 5), (1_024, 32)],
    );
    for &(n, width) in sizes {
        for wiring in 0..settings.choose(4, 2) {
            let mut random = Random::new(0x5EED_9000 + (10 * n + wiring) as u64);
            let wires = match wiring {
                0 => grid(n, width),
                1 => few_wires(n, n, &mut random),
                2 => few_wires(n, 4 * n, &mut random),
                _ => some_wires(n, 50, &mut random),
            };
            answers += change_and_compare(settings, n, wires, &mut random)
                .map_err(|why| format!("{n} lamps, wiring {wiring}: {why}"))?;
        }
    }
    Ok(answers)
}

fn change_and_compare(
    settings: &Settings,
    n: usize,
    wires: Vec<(u16, u16)>,
    random: &mut Random,
) -> Result<u64, String> {
    let mut answers = 0;
    let lending = settings.lending(random);
    let mut play = Play::with(n, &wires, &vec![false; n], lending, random)?;
    let changes = [0, 1, 2, n / 16, n / 16 + 1];
    for round in 0..if n < 1_000 { 10 } else { 4 } {
        for (i, j) in few_wires(n, changes[round % changes.len()], random) {
            play.say(Call::Wire(i, j))?;
        }
        // A picture that presses have made, and then one that differs by a lamp.
        play.picture_by_presses(random)?;
        for picture in 0..2 {
            if picture == 1 {
                play.say(Call::Turn(random.below(n) as u16))?;
            }
            play.say(Call::Lit)?;
            let out = play.say(Call::Out)?;
            let ways = play.say(Call::Ways)?;
            play.layout()?;
            compare_anew(settings, &play.wall, &out, &ways, random)
                .map_err(|why| format!("round {round}, picture {picture}: {why}"))?;
            answers += 3;
        }
    }
    Ok(answers)
}

/// The same board, opened anew, with its wires in another order.
fn compare_anew(
    settings: &Settings,
    wall: &Wall,
    out: &Answer,
    ways: &Answer,
    random: &mut Random,
) -> Result<(), String> {
    let n = wall.lamps();
    let mut wires = wall.wires();
    random.shuffle(&mut wires);
    let lending = settings.lending(random);
    let mut anew = Play::with(n, &wires, &vec![false; n], lending, random)?;
    // With all lamps off there are as many ways as quiet sets.
    let quiet = anew.say(Call::Ways)?;
    for i in (0..n).filter(|&i| wall.lit[i]) {
        anew.say(Call::Turn(i as u16))?;
    }
    let ways_anew = anew.say(Call::Ways)?;
    let out_anew = anew.say(Call::Out)?;
    let none = Answer::Number(0);
    let few = matches!(quiet, Answer::Number(k) if u32::from(k) <= LIMIT + 1);
    let right = match (*ways == none, few) {
        (true, _) => Kind::Never,
        (false, true) => Kind::Fewest,
        (false, false) => Kind::SomeWay,
    };
    let agree = match (out, &out_anew) {
        (Answer::Set(kind, set), Answer::Set(kind_anew, set_anew)) => {
            *kind == right
                && *kind_anew == right
                && (!few || how_many(set) == how_many(set_anew))
                && *ways == ways_anew
                && (*ways == none || *ways == quiet)
        }
        _ => false,
    };
    if agree {
        Ok(())
    } else {
        Err(format!(
            "ways {ways:?}, and anew {ways_anew:?}, with all off {quiet:?}; out {}, and anew {}",
            shown(out),
            shown(&out_anew),
        ))
    }
}

fn shown(out: &Answer) -> String {
    match out {
        Answer::Set(kind, set) => format!("{kind:?} {}", bits(set)),
        other => format!("{other:?}"),
    }
}

/// If all lamps are on they can be put out, whatever the wires.
pub fn all_on(settings: &Settings) -> Result<u64, String> {
    let boards = settings.choose(150, 20);
    let most = settings.choose(300, 130);
    for board in 0..boards {
        let mut random = Random::new(0x5EED_A000 + board as u64);
        let mut run = || {
            let n = random.between(1, most);
            let density = random.pick(&[1, 5, 50, 95, 100]);
            let wires = some_wires(n, density, &mut random);
            let lending = settings.lending(&mut random);
            let mut play = Play::with(n, &wires, &vec![true; n], lending, &mut random)?;
            match play.say(Call::Out)? {
                Answer::Set(Kind::Never, _) => Err("all on, and answered by 5".to_string()),
                _ => Ok(()),
            }
        };
        run().map_err(|why| format!("board {board}: {why}"))?;
    }
    Ok(boards as u64)
}
