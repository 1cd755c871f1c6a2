//! Which answers are right.

use crate::brute::Survey;
use crate::calls::{Answer, Call, Kind, Refusal, bits};
use crate::wall::Wall;

/// Up to 2^16 = 65,536 ways, or quiet sets, fewest is asked for.
pub const LIMIT: u32 = 16;

/// Whether the answer is right for what was asked on the wall. If all that there is to know of the
/// wall is known, it is held to that too. The error is what would have been right.
pub fn judge(
    wall: &Wall,
    asked: Result<Call, Refusal>,
    answer: &Answer,
    known: Option<&Survey>,
) -> Result<(), String> {
    let right = match asked {
        Err(refusal) => Answer::Refused(refusal),
        Ok(Call::Wire(i, _) | Call::Turn(i) | Call::Press(i)) => Answer::Number(i),
        Ok(Call::Lit) => Answer::Set(Kind::Lit, wall.lit.clone()),
        Ok(Call::Out) => return judge_out(wall, answer, known),
        Ok(Call::Ways) => match known {
            Some(known) => Answer::Number(known.ways.map_or(0, |k| k as u16 + 1)),
            None => return judge_ways(wall, answer),
        },
    };
    if *answer == right {
        Ok(())
    } else {
        Err(format!("{right:?}"))
    }
}

/// Without knowing the wall: a number that can be.
fn judge_ways(wall: &Wall, answer: &Answer) -> Result<(), String> {
    match answer {
        Answer::Number(k) if usize::from(*k) <= wall.lamps() + 1 => Ok(()),
        _ => Err(format!("a number of at most {}", wall.lamps() + 1)),
    }
}

fn judge_out(wall: &Wall, answer: &Answer, known: Option<&Survey>) -> Result<(), String> {
    let Answer::Set(kind, set) = answer else {
        return Err("an answer of 3, 4 or 5".into());
    };
    match kind {
        Kind::Lit => return Err("an answer of 3, 4 or 5".into()),
        Kind::Fewest | Kind::SomeWay => {
            let left = wall.lit_after(set);
            if left.contains(&true) {
                return Err(format!("all out, but these stay lit: {}", bits(&left)));
            }
        }
        Kind::Never => {
            if let Some(button) = wall.not_quiet_at(set) {
                return Err(format!("a quiet set, but {button} changes an odd number"));
            }
            if !wall.odd_lit(set) {
                return Err("a set of which an odd number is lit".into());
            }
        }
    }
    match known {
        Some(known) => judge_known(*kind, how_many(set), known),
        None => Ok(()),
    }
}

fn judge_known(kind: Kind, count: usize, known: &Survey) -> Result<(), String> {
    let (right, least) = match known.ways {
        Some(k) if k <= LIMIT => (Kind::Fewest, known.fewest),
        Some(_) => (Kind::SomeWay, None),
        None if known.quiet <= LIMIT => (Kind::Never, known.proof),
        None => (Kind::Never, None),
    };
    if kind == right && least.is_none_or(|least| count == least) {
        Ok(())
    } else {
        Err(match least {
            Some(least) => format!("{right:?} with {least} lamps, by {known:?}"),
            None => format!("{right:?}, by {known:?}"),
        })
    }
}

pub fn how_many(set: &[bool]) -> usize {
    set.iter().filter(|&&on| on).count()
}
