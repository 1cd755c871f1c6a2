//! Calls and answers as bytes, by the book: docs/NUMBERS.md.

/// A call that can be read.
#[derive(Clone, Copy, Debug, PartialEq)]
pub enum Call {
    Wire(u16, u16),
    Turn(u16),
    Press(u16),
    Lit,
    Out,
    Ways,
}

impl Call {
    pub fn bytes(self) -> Vec<u8> {
        let (number, lamps) = match self {
            Call::Wire(i, j) => (0, vec![i, j]),
            Call::Turn(i) => (1, vec![i]),
            Call::Press(i) => (2, vec![i]),
            Call::Lit => (3, vec![]),
            Call::Out => (4, vec![]),
            Call::Ways => (5, vec![]),
        };
        let mut bytes = vec![number];
        for lamp in lamps {
            bytes.extend(lamp.to_le_bytes());
        }
        bytes
    }
}

/// Why a call is turned away, and the place.
#[derive(Clone, Copy, Debug, PartialEq)]
pub struct Refusal {
    pub number: u8,
    pub place: u16,
}

/// What these bytes are on a board of so many lamps: a call, or the first refusal that applies.
pub fn rule(bytes: &[u8], lamps: usize) -> Result<Call, Refusal> {
    let two = |low, high| u16::from_le_bytes([low, high]);
    let refusal = |number, place| Err(Refusal { number, place });
    let call = match *bytes {
        [0, a, b, c, d] => Call::Wire(two(a, b), two(c, d)),
        [1, a, b] => Call::Turn(two(a, b)),
        [2, a, b] => Call::Press(two(a, b)),
        [3] => Call::Lit,
        [4] => Call::Out,
        [5] => Call::Ways,
        _ => return refusal(1, longest_beginning(bytes)),
    };
    let there = |lamp: u16| usize::from(lamp) < lamps;
    match call {
        Call::Wire(i, j) if !there(i) || !there(j) => refusal(4, 0),
        Call::Turn(i) | Call::Press(i) if !there(i) => refusal(4, 0),
        Call::Wire(i, j) if i == j => refusal(2, 0),
        _ => Ok(call),
    }
}

/// How many of the bytes, from the first on, some call begins with.
fn longest_beginning(bytes: &[u8]) -> u16 {
    let whole = match bytes.first() {
        Some(0) => 5,
        Some(1 | 2) => 3,
        Some(3..=5) => 1,
        _ => 0,
    };
    bytes.len().min(whole) as u16
}

/// What the lamps of an answer are.
#[derive(Clone, Copy, Debug, PartialEq)]
pub enum Kind {
    Lit,
    Fewest,
    SomeWay,
    Never,
}

#[derive(Clone, Debug, PartialEq)]
pub enum Answer {
    Refused(Refusal),
    Number(u16),
    Set(Kind, Vec<bool>),
}

/// Reads the bytes of an answer on a board of so many lamps.
pub fn read_answer(bytes: &[u8], lamps: usize) -> Result<Answer, String> {
    let two = |low, high| u16::from_le_bytes([low, high]);
    let kind = match *bytes {
        [0, number, low, high] => {
            let place = two(low, high);
            return Ok(Answer::Refused(Refusal { number, place }));
        }
        [1, low, high] => return Ok(Answer::Number(two(low, high))),
        [2, ..] => Kind::Lit,
        [3, ..] => Kind::Fewest,
        [4, ..] => Kind::SomeWay,
        [5, ..] => Kind::Never,
        _ => return Err("an answer of 0 with 4 bytes, 1 with 3, or 2 to 5".into()),
    };
    if bytes.len() != 3 + lamps.div_ceil(8) {
        return Err(format!("{} bytes", 3 + lamps.div_ceil(8)));
    }
    if usize::from(two(bytes[1], bytes[2])) != lamps {
        return Err(format!("a set of {lamps} lamps"));
    }
    let bit = |k: usize| bytes[3 + k / 8] >> (k % 8) & 1 == 1;
    if (lamps..8 * lamps.div_ceil(8)).any(bit) {
        return Err("spare bits that are 0".into());
    }
    Ok(Answer::Set(kind, (0..lamps).map(bit).collect()))
}

/// Bytes for a reader.
pub fn hex(bytes: &[u8]) -> String {
    let shown: Vec<String> = bytes.iter().take(200).map(|b| format!("{b:02X}")).collect();
    let more = if bytes.len() > 200 {
        format!(" … ({} bytes)", bytes.len())
    } else {
        String::new()
    };
    format!("`{}{}`", shown.join(" "), more)
}

/// A set of lamps for a reader.
pub fn bits(set: &[bool]) -> String {
    set.iter().map(|&on| if on { '1' } else { '0' }).collect()
}
