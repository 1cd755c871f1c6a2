//! The model: a wall of lamps as tables of yes and no, and what a press does to it.

use crate::calls::Call;

#[derive(Clone)]
pub struct Wall {
    lamps: usize,
    /// `changes[i * lamps + j]`: pressing i changes j.
    changes: Vec<bool>,
    pub lit: Vec<bool>,
}

impl Wall {
    /// No wires, all lamps off.
    pub fn new(lamps: usize) -> Self {
        let mut changes = vec![false; lamps * lamps];
        for i in 0..lamps {
            changes[i * lamps + i] = true;
        }
        Wall {
            lamps,
            changes,
            lit: vec![false; lamps],
        }
    }

    pub fn lamps(&self) -> usize {
        self.lamps
    }

    /// What pressing button i changes.
    pub fn button(&self, i: usize) -> &[bool] {
        &self.changes[i * self.lamps..][..self.lamps]
    }

    /// The pairs of lamps that are wired, the lower one first.
    pub fn wires(&self) -> Vec<(u16, u16)> {
        let mut wires = vec![];
        for i in 0..self.lamps {
            for j in i + 1..self.lamps {
                if self.button(i)[j] {
                    wires.push((i as u16, j as u16));
                }
            }
        }
        wires
    }

    /// What a call that is not refused does.
    pub fn perform(&mut self, call: Call) {
        let n = self.lamps;
        match call {
            Call::Wire(i, j) => {
                let (i, j) = (usize::from(i), usize::from(j));
                self.changes[i * n + j] ^= true;
                self.changes[j * n + i] ^= true;
            }
            Call::Turn(i) => self.lit[usize::from(i)] ^= true,
            Call::Press(i) => {
                let mut lit = std::mem::take(&mut self.lit);
                turn_over(&mut lit, self.button(usize::from(i)));
                self.lit = lit;
            }
            Call::Lit | Call::Out | Call::Ways => {}
        }
    }

    /// What is lit after each button of the set has been pressed.
    pub fn lit_after(&self, presses: &[bool]) -> Vec<bool> {
        let mut lit = self.lit.clone();
        for i in (0..self.lamps).filter(|&i| presses[i]) {
            turn_over(&mut lit, self.button(i));
        }
        lit
    }

    /// The first button that changes an odd number of the set.
    pub fn not_quiet_at(&self, set: &[bool]) -> Option<usize> {
        (0..self.lamps).find(|&i| odd_in_common(self.button(i), set))
    }

    /// Whether an odd number of the set is lit.
    pub fn odd_lit(&self, set: &[bool]) -> bool {
        odd_in_common(&self.lit, set)
    }
}

fn turn_over(lit: &mut [bool], which: &[bool]) {
    for (lamp, &turned) in lit.iter_mut().zip(which) {
        *lamp ^= turned;
    }
}

fn odd_in_common(one: &[bool], other: &[bool]) -> bool {
    one.iter()
        .zip(other)
        .fold(false, |odd, (&a, &b)| odd ^ (a & b))
}
