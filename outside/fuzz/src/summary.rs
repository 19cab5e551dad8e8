//! What the calls of a run came to.

use std::fmt;

#[derive(Default)]
pub struct Summary {
    refused: [u64; 12],
    fates: [u64; 4],
    walks: [u64; 17],
    calls: u64,
}

impl Summary {
    pub fn calls(&self) -> u64 {
        self.calls
    }

    pub fn add(&mut self, answer: &model::Answer, fates: &[u8]) {
        self.calls += 1;
        self.refused[answer.refused as usize] += 1;
        if answer.refused == 0 {
            self.walks[answer.walks] += 1;
            fates.iter().for_each(|&fate| self.fates[fate as usize] += 1);
        }
    }
}

impl fmt::Display for Summary {
    fn fmt(&self, f: &mut fmt::Formatter<'_>) -> fmt::Result {
        writeln!(f, "calls      {}", self.calls)?;
        writeln!(f, "accepted   {}", self.refused[0])?;
        for (number, times) in self.refused.iter().enumerate().skip(1) {
            writeln!(f, "refused {number:<2} {times}")?;
        }
        for (fate, times) in ["left", "absent", "layer1", "layer2"].iter().zip(&self.fates) {
            writeln!(f, "{fate:<10} {times}")?;
        }
        for (walks, times) in self.walks.iter().enumerate().filter(|(_, &times)| times > 0) {
            writeln!(f, "walks {walks:<4} {times}")?;
        }
        Ok(())
    }
}
