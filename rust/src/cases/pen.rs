//! Writes the lines of plans and scripts.

use super::plans::Plan;
use crate::rng::Rng;

pub struct Pen {
    pub rng: Rng,
    /// Writes the same lines with other gaps, zeros and line ends.
    pub messy: bool,
    bytes: Vec<u8>,
}

impl Pen {
    pub fn new(rng: Rng) -> Self {
        Pen { rng, messy: false, bytes: Vec::new() }
    }

    pub fn into_bytes(mut self) -> Vec<u8> {
        if self.rng.percent(5) {
            while self.bytes.last().is_some_and(|b| b"\r\n".contains(b)) {
                self.bytes.pop();
            }
        }
        self.bytes
    }

    /// A line as it is.
    pub fn raw(&mut self, line: &[u8]) {
        self.bytes.extend_from_slice(line);
        self.bytes.push(b'\n');
    }

    pub fn line(&mut self, line: &str) {
        if !self.messy || self.rng.percent(50) {
            return self.raw(line.as_bytes());
        }
        let line = self.mess_up(line);
        self.raw(line.as_bytes());
    }

    pub fn plan(&mut self, plan: &Plan) {
        for line in plan.lines_with_gives_anywhere(&mut self.rng) {
            self.line(&line);
        }
        self.line("run");
    }

    pub fn want(&mut self, user: u32, part: u32, level: u32) {
        self.line(&format!("{user} want {part} {level}"));
    }

    pub fn give(&mut self, user: u32) {
        self.line(&format!("{user} give"));
    }

    pub fn slow(&mut self, part: u32, askings: u32) {
        self.line(&format!("slow {part} {askings}"));
    }

    pub fn bad(&mut self, part: u32) {
        self.line(&format!("bad {part}"));
    }

    /// A tick, and a line that ends what it prints.
    pub fn tick(&mut self) {
        self.line("tick 1");
        self.mark();
    }

    /// Ticks one by one, or all at once.
    pub fn ticks(&mut self, ticks: u32) {
        if self.rng.percent(90) {
            return (0..ticks).for_each(|_| self.tick());
        }
        self.line(&format!("tick {ticks}"));
        if self.rng.percent(80) {
            self.mark();
        }
    }

    /// A line that prints something and changes nothing.
    pub fn mark(&mut self) {
        match self.rng.below(8) {
            0 => self.line("least"),
            1 => self.raw(b""),
            2 => self.raw(b"?"),
            3 => self.want(32, 0, 1),
            4 | 5 => self.line("drawn"),
            _ => self.give(32),
        }
    }

    fn mess_up(&mut self, line: &str) -> String {
        let gaps = ["  ", "\t", " \t ", " "];
        let mut messy = String::from(self.rng.pick(&["", " ", "\t", ""]));
        for (i, word) in line.split(' ').enumerate() {
            if i > 0 {
                messy.push_str(self.rng.pick(&gaps));
            }
            if word.parse::<u32>().is_ok() && self.rng.percent(20) {
                messy.push_str(self.rng.pick(&["0", "00", "0000000000000000000000"]));
            }
            // What is too large counts as the largest.
            let large = word == "4294967295" && self.rng.percent(50);
            messy.push_str(if large { self.rng.pick(&["4294967296", "99999999999999999999"]) } else { word });
        }
        messy.push_str(self.rng.pick(&["", " ", "\t", "\r", " \r"]));
        messy
    }
}
