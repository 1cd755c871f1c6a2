//! A desk and the model of its board, side by side: every answer is judged.

use crate::brute::{self, Survey};
use crate::calls::{Answer, Call, bits, hex, read_answer, rule};
use crate::guarded::Lending;
use crate::lights::Desk;
use crate::random::Random;
use crate::right::judge;
use crate::wall::Wall;

/// From more lamps than these on, calls are not kept for a report.
const KEPT: usize = 64;

pub struct Play {
    pub desk: Desk,
    pub wall: Wall,
    calls: Vec<Vec<u8>>,
    known: Option<Survey>,
}

impl Play {
    /// Opens a board in memory that was full of garbage.
    pub fn open(lamps: usize, lending: Lending, random: &mut Random) -> Result<Self, String> {
        let mut desk = Desk::new(lamps, lending);
        for slice in desk.words_mut() {
            slice.asked_mut().fill_with(|| random.word());
        }
        desk.pivots.asked_mut().fill_with(|| random.word() as u16);
        desk.open()
            .map_err(|why| format!("opening {lamps} lamps: {why}"))?;
        let play = Play {
            desk,
            wall: Wall::new(lamps),
            calls: vec![],
            known: None,
        };
        play.layout()
            .map_err(|why| format!("opening {lamps} lamps: {why}"))?;
        Ok(play)
    }

    /// Opens a board, brings the wires in, in this order, and turns the lamps on.
    pub fn with(
        lamps: usize,
        wires: &[(u16, u16)],
        lit: &[bool],
        lending: Lending,
        random: &mut Random,
    ) -> Result<Self, String> {
        let mut play = Play::open(lamps, lending, random)?;
        for &(i, j) in wires {
            play.say(Call::Wire(i, j))?;
        }
        for i in (0..lamps).filter(|&i| lit[i]) {
            play.say(Call::Turn(i as u16))?;
        }
        Ok(play)
    }

    pub fn say(&mut self, call: Call) -> Result<Answer, String> {
        self.ask(&call.bytes())
    }

    /// Turns every lamp off and presses some buttons: a picture that can be put out.
    pub fn picture_by_presses(&mut self, random: &mut Random) -> Result<(), String> {
        for i in 0..self.wall.lamps() {
            if self.wall.lit[i] {
                self.say(Call::Turn(i as u16))?;
            }
        }
        for i in 0..self.wall.lamps() as u16 {
            if random.percent(50) {
                self.say(Call::Press(i))?;
            }
        }
        Ok(())
    }

    /// Makes a call and judges the answer; all sets of a small board are gone through for that.
    pub fn ask(&mut self, bytes: &[u8]) -> Result<Answer, String> {
        let needed = matches!(bytes, [4] | [5]) && self.wall.lamps() <= brute::MOST;
        if needed && self.known.is_none() {
            self.known = Some(brute::survey(&self.wall));
        }
        let known = self.known.take();
        let answer = self.ask_knowing(bytes, known.as_ref())?;
        if matches!(bytes, [3..=5]) {
            self.known = known;
        }
        Ok(answer)
    }

    /// The same, where others know what there is to know of the board.
    pub fn ask_knowing(&mut self, bytes: &[u8], known: Option<&Survey>) -> Result<Answer, String> {
        if self.wall.lamps() <= KEPT {
            self.calls.push(bytes.to_vec());
        }
        let asked = rule(bytes, self.wall.lamps());
        let said = self
            .desk
            .call(bytes)
            .map_err(|why| self.report(bytes, &why))?;
        let wrong = |right: String| {
            let said = hex(&said);
            self.report(bytes, &format!("answered {said}; right would be {right}"))
        };
        let answer = read_answer(&said, self.wall.lamps()).map_err(wrong)?;
        judge(&self.wall, asked, &answer, known).map_err(wrong)?;
        if let Ok(call) = asked {
            self.wall.perform(call);
        }
        if self.wall.lamps() <= brute::MOST {
            self.layout().map_err(|why| self.report(bytes, &why))?;
        }
        Ok(answer)
    }

    /// The memory holds what docs/NUMBERS.md says: `wires` and `lit` are those of the model, no bit
    /// past the last lamp is set, and pivots are columns or n.
    pub fn layout(&self) -> Result<(), String> {
        let (n, desk) = (self.wall.lamps(), &self.desk);
        let width = n.div_ceil(64);
        for i in 0..n {
            let row = &desk.wires.asked()[i * width..][..width];
            if row != pack(self.wall.button(i)) {
                return Err(format!("row {i} of wires is {row:x?}"));
            }
        }
        if desk.lit.asked() != pack(&self.wall.lit) {
            return Err(format!("lit is {:x?}", desk.lit.asked()));
        }
        let spare = if n.is_multiple_of(64) {
            0
        } else {
            u64::MAX << (n % 64)
        };
        for slice in [&desk.rows, &desk.done, &desk.marks] {
            for row in slice.asked().chunks(width) {
                if row[width - 1] & spare != 0 {
                    return Err(format!("a bit past lamp {} is set: {row:x?}", n - 1));
                }
            }
        }
        match desk.pivots.asked().iter().find(|&&p| usize::from(p) > n) {
            Some(pivot) => Err(format!("a pivot is {pivot}")),
            None => Ok(()),
        }
    }

    /// All that is needed to see it again.
    fn report(&self, bytes: &[u8], what: &str) -> String {
        let n = self.wall.lamps();
        let mut report = format!("{n} lamps, lit {}", bits(&self.wall.lit));
        let wires = self.wall.wires();
        if wires.len() <= 400 {
            let wires: Vec<String> = wires.iter().map(|(i, j)| format!("{i}-{j}")).collect();
            report += &format!(", wires {}", wires.join(" "));
        } else {
            report += &format!(", {} wires", wires.len());
        }
        report += &format!("; called {}: {what}", hex(bytes));
        if !self.calls.is_empty() {
            let calls: Vec<String> = self.calls.iter().map(|call| hex(call)).collect();
            report += &format!("\n        all calls: {}", calls.join(" "));
        }
        report
    }
}

/// A set as a row of words.
fn pack(set: &[bool]) -> Vec<u64> {
    let mut row = vec![0; set.len().div_ceil(64)];
    for i in (0..set.len()).filter(|&i| set[i]) {
        row[i / 64] |= 1 << (i % 64);
    }
    row
}
