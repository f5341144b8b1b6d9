//! Jobs at the limits.

use super::Maker;
use crate::rules::job;

impl Maker<'_> {
    pub fn nest(&mut self, depth: usize) -> Vec<u8> {
        let mut text = (*self
            .rng
            .pick(&["int", "str", "None", "list", "custom.0", "tuple[]"]))
        .to_owned();
        for _ in 0..depth {
            text = match self.rng.below(8) {
                0..=3 => format!("list[{text}]"),
                4 => format!("set[{text}]"),
                5 => format!("tuple[{text},...]"),
                6 => format!("dict[str,{text}]"),
                _ => format!("tuple[{text}]"),
            };
        }
        text.into_bytes()
    }

    pub fn wide(&mut self, from: usize, width: usize) -> String {
        let name = *self.rng.pick(&["host", "host", "custom"]);
        let all: Vec<String> = (from..from + width)
            .map(|n| format!("{name}.{n}"))
            .collect();
        all.join("|")
    }

    pub fn limit_text(&mut self) -> Vec<u8> {
        let width = self.rng.from_to(60, 67);
        let from = self.rng.from_to(16, 80);
        match self.rng.below(9) {
            0 | 1 => {
                let depth = self.rng.from_to(28, 34);
                self.nest(depth)
            }
            2 => self.wide(from, width).into_bytes(),
            3 => {
                let half = self.rng.from_to(28, 34);
                let (a, b) = (self.wide(16, half), self.wide(16 + half, 32));
                match self.rng.below(3) {
                    0 => format!("list[{a}]|list[{b}]"),
                    1 => format!("dict[{a},int]|dict[{b},str]"),
                    _ => format!("list[list[{a}]]|list[list[{b}]]"),
                }
                .into_bytes()
            }
            4 => {
                let width = self.rng.from_to(62, 66);
                format!("tuple[{}]", vec!["int"; width].join(",")).into_bytes()
            }
            5 => {
                let each: Vec<String> = (0..self.rng.from_to(40, 64))
                    .map(|i| format!("set[host.{}]", from + i))
                    .collect();
                format!("tuple[{}]", each.join(",")).into_bytes()
            }
            6 => {
                let each: Vec<String> = (0..self.rng.from_to(10, 60))
                    .map(|i| format!("tuple[host.{},dict,{}]", from + i, i % 3 + 16))
                    .map(|t| {
                        t.replace(",16]", ",int]")
                            .replace(",17]", ",str]")
                            .replace(",18]", ",set]")
                    })
                    .collect();
                format!("tuple[{}]", each.join(",")).into_bytes()
            }
            7 => {
                let each = vec![*self.rng.pick(&["list", "dict", "set"]); 64].join(",");
                let rows = self.rng.from_to(1, 11);
                let all: Vec<String> = (0..rows).map(|_| format!("tuple[{each}]")).collect();
                format!("tuple[{}]", all.join(",")).into_bytes()
            }
            _ => {
                let mut text = b"int|str".to_vec();
                text.resize(self.rng.from_to(4094, 4098), b' ');
                text
            }
        }
    }

    /// Fills the store nearly, then asks for just as many places as are free, or
    /// for a few more or less.
    pub fn brim(&mut self) {
        let used = loop {
            let each: Vec<&str> = (0..64)
                .map(|_| *self.rng.pick(&["int", "str", "set"]))
                .collect();
            self.records
                .texts
                .push(format!("tuple[{}]", each.join(",")).into_bytes());
            if self.records.texts.len() < 116 {
                continue;
            }
            match job::read(&self.records.bytes()) {
                Ok(read) if read.store.used() < 7830 => {}
                Ok(read) => break read.store.used(),
                Err(_) => {
                    self.records.texts.pop();
                    return;
                }
            }
        };
        let weight = (8192 - used) / 2 + self.rng.below(4) - 1;
        // A dict weighs three, an int one.
        let most_dicts = ((weight - 1) / 3).min(64);
        let fewest = (weight - 1).saturating_sub(64).div_ceil(2);
        if fewest > most_dicts {
            return;
        }
        let dicts = self.rng.from_to(fewest, most_dicts);
        let mut each = vec!["dict"; dicts];
        each.resize(weight - 1 - 2 * dicts, "int");
        self.records
            .texts
            .push(format!("tuple[{}]", each.join(",")).into_bytes());
    }

    pub fn limits(&mut self) {
        if self.rng.percent(4) {
            self.brim();
            self.any_cell();
            self.queries(5);
            return;
        }
        self.customs();
        match self.rng.below(4) {
            0 => {
                // Many short annotations.
                let most = self.rng.from_to(254, 258);
                for i in 0..most {
                    let text = format!("host.{}", 16 + i % 40);
                    self.records.texts.push(text.into_bytes());
                }
            }
            1 => {
                // Until a table is full.
                for i in 0..self.rng.from_to(3, 10) {
                    let from = 16 + 64 * i;
                    let text = match self.rng.below(3) {
                        0 => self.wide(from, 64),
                        1 => {
                            let each: Vec<String> = (from..from + 64)
                                .map(|n| format!("set[host.{n}]"))
                                .collect();
                            format!("tuple[{}]", each.join(","))
                        }
                        _ => {
                            let each: Vec<String> = (from..from + 40)
                                .map(|n| format!("tuple[host.{n},dict,int]"))
                                .collect();
                            format!("tuple[{}]", each.join(","))
                        }
                    };
                    self.records.texts.push(text.into_bytes());
                }
            }
            _ => {
                for _ in 0..self.rng.from_to(1, 5) {
                    let text = self.limit_text();
                    self.records.texts.push(text);
                }
            }
        }
        for _ in 0..self.rng.from_to(1, 6) {
            self.any_cell();
        }
        self.tangle(20);
        self.queries(12);
    }
}
