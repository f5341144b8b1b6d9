//! Jobs with faults.

use super::Maker;
use super::Rng;
use crate::typing::custom::Entry;

impl Maker<'_> {
    pub fn spoil_text(&mut self) {
        if self.records.texts.is_empty() {
            return;
        }
        let which = self.rng.below(self.records.texts.len());
        let mut text = std::mem::take(&mut self.records.texts[which]);
        for _ in 0..self.rng.from_to(1, 2) {
            let at = self.rng.below(text.len() + 1);
            let word: &[u8] = self.rng.pick::<&[u8]>(&[
                b"|",
                b"[",
                b"]",
                b",",
                b"...",
                b" ",
                b"int",
                b"list",
                b"tuple[",
                b"dict[",
                b"x",
                b"\t",
                b"\xff",
                b"host.",
                b"host.016",
                b"host.65536",
                b"custom.0",
                b"..",
                b"[]",
                b"typing.",
                b"\0",
                b" str",
                b", ...",
                b"host.00",
                b"tuple[int, ...",
            ]);
            match self.rng.below(4) {
                0 => {
                    text.splice(at..at, word.iter().copied());
                }
                1 if at < text.len() => {
                    text.remove(at);
                }
                2 => text.truncate(at),
                _ => {
                    let end = (at + self.rng.below(4)).min(text.len());
                    text.splice(at..end, word.iter().copied());
                }
            }
        }
        self.records.texts[which] = text;
    }

    pub fn spoil_cell(&mut self) {
        let n = self.records.cells.len();
        if n == 0 {
            return;
        }
        let which = self.rng.below(n);
        let number = *self.rng.pick(&[0, 9, 12, 15, 1, 2, 3, 4, 5, 6, 8, 16]);
        let mark = self.mark();
        let flags = *self.rng.pick(&[0, 1, 2, 3, 4, 7, 8, 9, 10, 255]);
        let far = *self.rng.pick(&[n as u16, n as u16 + 1, 65_535, 0]);
        let cell = &mut self.records.cells[which];
        match self.rng.below(5) {
            0 => cell.number = number,
            1 => cell.flags = flags,
            2 => cell.mark = mark,
            3 => cell.parts.push(far),
            _ => {
                cell.parts.pop();
            }
        }
    }

    pub fn too_many(&mut self) {
        match self.rng.below(3) {
            0 => {
                let n = self.rng.from_to(63, 66);
                self.records.customs = vec![Entry::Mark { number: 1, mark: 0 }; n];
            }
            1 => {
                let n = self.rng.from_to(63, 66);
                self.records.customs = vec![Entry::Range { low: 0, high: 9 }; n];
            }
            _ => {
                let n = self.rng.from_to(4095, 4098);
                while self.records.cells.len() < n {
                    self.push(3, 0, 0, vec![]);
                }
            }
        }
    }
}

pub fn spoil_bytes(job: &mut Vec<u8>, rng: &mut Rng) {
    // Places of the records' tags.
    let mut tags = Vec::new();
    let mut at = 0;
    while at + 3 <= job.len() {
        tags.push(at);
        at += 3 + u16::from_be_bytes([job[at + 1], job[at + 2]]) as usize;
    }
    let tag = if tags.is_empty() { 0 } else { *rng.pick(&tags) };
    match rng.below(7) {
        0 => {
            let end = rng.below(job.len() + 1);
            job.truncate(end);
        }
        1 if tag < job.len() => job[tag] = rng.below(7) as u8,
        2 if tag + 2 < job.len() => {
            job[tag + 2] = job[tag + 2].wrapping_add(rng.from_to(1, 3) as u8)
        }
        3 if tag + 2 < job.len() => job[tag + 1] = rng.below(2) as u8,
        4 => job.extend(std::iter::repeat(5).take(rng.from_to(1, 3))),
        5 if !job.is_empty() => {
            let at = rng.below(job.len());
            job[at] = rng.below(256) as u8;
        }
        _ => {
            let at = rng.below(job.len() + 1);
            job.insert(at, rng.below(6) as u8);
        }
    }
}
