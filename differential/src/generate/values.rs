//! Cells: any ones, ones made to fit a text, customs' entries, and queries.

use super::Maker;
use crate::rules::text::Alternative;
use crate::rules::text::Args;
use crate::rules::text::Name;
use crate::rules::text::Text;
use crate::typing::custom::Entry;
use crate::values::heap::CellText;

impl Maker<'_> {
    pub fn push(&mut self, number: u16, flags: u8, mark: i64, parts: Vec<u16>) -> u16 {
        self.records.cells.push(CellText {
            number,
            flags,
            mark,
            parts,
        });
        (self.records.cells.len() - 1) as u16
    }

    pub fn mark(&mut self) -> i64 {
        *self
            .rng
            .pick(&[0, 1, -1, 2, 3, 5, 7, 100, i64::MAX, i64::MIN])
    }

    pub fn host_cell(&mut self, number: u16, flags: u8) -> u16 {
        let mark = self.mark();
        self.push(number, flags, mark, vec![])
    }

    /// A cell of this type number; its parts are some of the cells that stand.
    pub fn cell(&mut self, number: u16) -> u16 {
        let stand = self.records.cells.len();
        match number {
            1 if self.rng.percent(15) => self.push(1, 8, 0, vec![]),
            1 => {
                let mark = self.mark();
                self.push(1, 0, mark, vec![])
            }
            2 => {
                let mark = self.rng.below(2) as i64;
                self.push(2, 0, mark, vec![])
            }
            3 | 4 => self.push(number, 0, 0, vec![]),
            5..=8 => {
                let mut n = if stand == 0 { 0 } else { self.rng.below(4) };
                if number == 6 {
                    n -= n % 2;
                }
                let parts = (0..n).map(|_| self.rng.below(stand) as u16).collect();
                self.push(number, 2, 0, parts)
            }
            n => {
                let flags = self.rng.below(8) as u8;
                self.host_cell(n, flags)
            }
        }
    }

    pub fn any_cell(&mut self) -> u16 {
        let own = self.rng.from_to(16, 19) as u16;
        let number = *self.rng.pick(&[1, 1, 2, 3, 4, 4, 5, 5, 6, 7, 8, own, own]);
        self.cell(number)
    }

    pub fn value(&mut self, text: &Text) -> u16 {
        let full = self.records.cells.len() > 60;
        if full || self.rng.percent(6) {
            return self.any_cell();
        }
        let of = self.rng.below(text.0.len());
        self.value_of(&text.0[of])
    }

    pub fn some(&mut self, text: Option<&Text>) -> Vec<u16> {
        let n = *self.rng.pick(&[0, 1, 1, 2, 2, 3]);
        (0..n)
            .map(|_| match text {
                Some(t) => self.value(t),
                None => self.any_cell(),
            })
            .collect()
    }

    pub fn value_of(&mut self, a: &Alternative) -> u16 {
        let args: Vec<&Text> = match &a.args {
            Args::Bare => vec![],
            Args::Many(t) => vec![&**t],
            Args::Texts(ts) => ts.iter().collect(),
        };
        match a.name {
            Name::Int => self.cell(1),
            Name::Bool => self.cell(2),
            Name::None => self.cell(3),
            Name::Str => self.cell(4),
            Name::Host(n) if n != 0 && !(9..=15).contains(&n) => self.cell(n),
            Name::Host(_) | Name::Any | Name::Never => self.any_cell(),
            Name::Type => self.host_cell(16, 4),
            Name::Callable => self.host_cell(17, 1),
            Name::Iterable if self.rng.percent(50) => self.host_cell(18, 2),
            Name::Custom(n) => self.custom_value(n),
            Name::List | Name::Set | Name::Iterable => {
                let parts = self.some(args.first().copied());
                self.push(if a.name == Name::Set { 7 } else { 5 }, 2, 0, parts)
            }
            Name::Dict => {
                let n = *self.rng.pick(&[0, 1, 1, 2, 3]);
                let mut parts = Vec::new();
                for i in 0..2 * n {
                    parts.push(match args.get(i % 2) {
                        Some(t) => self.value(t),
                        None => self.any_cell(),
                    });
                }
                self.push(6, 2, 0, parts)
            }
            Name::Tuple => {
                let parts = match a.args {
                    Args::Texts(_) => args.iter().map(|t| self.value(t)).collect(),
                    _ => self.some(args.first().copied()),
                };
                self.push(8, 2, 0, parts)
            }
        }
    }

    pub fn custom_value(&mut self, n: u16) -> u16 {
        match self.records.customs.get(n as usize).copied() {
            Some(Entry::Mark { number, mark }) if number >= 16 => {
                let flags = self.rng.below(8) as u8;
                self.push(number, flags, mark, vec![])
            }
            Some(Entry::Mark { number: 1, mark: 0 }) if self.rng.percent(30) => {
                self.push(1, 8, 0, vec![])
            }
            Some(Entry::Mark { number: 1, mark }) => self.push(1, 0, mark, vec![]),
            Some(Entry::Mark {
                number: n @ 2..=8, ..
            }) => self.cell(n),
            Some(Entry::Range { low, high }) => {
                let near = *self
                    .rng
                    .pick(&[low, high, low.wrapping_sub(1), high.wrapping_add(1)]);
                self.push(1, 0, near, vec![])
            }
            _ => self.any_cell(),
        }
    }

    pub fn customs(&mut self) {
        for _ in 0..*self.rng.pick(&[0, 1, 1, 2, 3]) {
            let number = *self.rng.pick(&[0, 0, 1, 1, 2, 4, 5, 8, 16, 16, 17, 9]);
            let mark = match number {
                0 | 9 | 16.. => self.mark(),
                _ => *self.rng.pick(&[0, 0, 1, 5]),
            };
            self.records.customs.push(Entry::Mark { number, mark });
        }
        for _ in 0..*self.rng.pick(&[0, 1, 1, 2]) {
            let (low, high) = (self.mark(), self.mark());
            self.records.customs.push(Entry::Range { low, high });
        }
    }

    /// Turns some parts to other cells, later ones and the cell itself too.
    pub fn tangle(&mut self, percent: usize) {
        let n = self.records.cells.len();
        for c in 0..n {
            for p in 0..self.records.cells[c].parts.len() {
                if self.rng.percent(percent) {
                    let other = if self.rng.percent(30) {
                        c
                    } else {
                        self.rng.below(n)
                    };
                    self.records.cells[c].parts[p] = other as u16;
                }
            }
        }
    }

    pub fn queries(&mut self, most: usize) {
        let (texts, cells) = (self.records.texts.len(), self.records.cells.len());
        for a in 0..texts {
            for v in 0..cells {
                self.records.queries.push((a as u16, v as u16));
            }
        }
        while self.records.queries.len() > most {
            let i = self.rng.below(self.records.queries.len());
            self.records.queries.swap_remove(i);
        }
        if self.rng.percent(15) {
            let a = self.rng.below(texts + 2) as u16;
            let v = *self.rng.pick(&[cells, cells + 1, 65_535, 0]) as u16;
            self.records.queries.push((a, v));
        }
        if self.rng.percent(5) {
            self.records.queries.push((texts as u16, 0));
        }
    }
}
