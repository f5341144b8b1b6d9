//! Annotation texts: of every kind, merging ones, and how they are written.

use super::Maker;
use super::Rng;
use crate::rules::text::Alternative;
use crate::rules::text::Args;
use crate::rules::text::Name;
use crate::rules::text::Text;

fn bare(name: Name) -> Alternative {
    Alternative {
        at: 0,
        name,
        args: Args::Bare,
    }
}

fn with(name: Name, args: Vec<Text>) -> Alternative {
    Alternative {
        at: 0,
        name,
        args: Args::Texts(args),
    }
}

fn one(a: Alternative) -> Text {
    Text(vec![a])
}

impl Maker<'_> {
    pub fn host(&mut self) -> Name {
        Name::Host(match self.rng.below(300) {
            0 => 0,
            1 => self.rng.from_to(9, 15) as u16,
            2..=9 => 65_535,
            10..=89 => self.rng.from_to(1, 8) as u16,
            _ => self.rng.from_to(16, 19) as u16,
        })
    }

    pub fn custom(&mut self) -> Name {
        let n = self.records.customs.len() + 1;
        Name::Custom(if self.rng.percent(2) {
            65_535
        } else {
            self.rng.below(n) as u16
        })
    }

    pub fn leaf(&mut self) -> Alternative {
        let name = match self.rng.below(40) {
            0..=6 => Name::Int,
            7..=9 => Name::Bool,
            10..=15 => Name::Str,
            16..=20 => Name::None,
            21 => Name::Type,
            22 => Name::Callable,
            23 => Name::Iterable,
            24 => Name::Any,
            25 => Name::Never,
            26 | 27 => Name::List,
            28 => Name::Set,
            29 => Name::Dict,
            30 => Name::Tuple,
            31..=34 => self.host(),
            _ => self.custom(),
        };
        bare(name)
    }

    pub fn alternative(&mut self, depth: usize) -> Alternative {
        if depth == 0 || self.rng.percent(30) {
            return self.leaf();
        }
        match self.rng.below(14) {
            0..=3 => {
                let item = self.text(depth - 1);
                with(Name::List, vec![item])
            }
            4..=6 => {
                let (k, v) = (self.text(depth - 1), self.text(depth - 1));
                with(Name::Dict, vec![k, v])
            }
            7 | 8 => {
                let item = self.text(depth - 1);
                with(Name::Set, vec![item])
            }
            9 => {
                let item = self.text(depth - 1);
                with(Name::Iterable, vec![item])
            }
            10 => {
                let item = Box::new(self.text(depth - 1));
                Alternative {
                    at: 0,
                    name: Name::Tuple,
                    args: Args::Many(item),
                }
            }
            _ => {
                let n = *self.rng.pick(&[0, 1, 1, 2, 2, 2, 3, 3, 4]);
                let elements = (0..n).map(|_| self.text(depth - 1)).collect();
                with(Name::Tuple, elements)
            }
        }
    }

    pub fn text(&mut self, depth: usize) -> Text {
        let n = *self.rng.pick(&[1, 1, 1, 1, 1, 2, 2, 2, 2, 3, 3, 4]);
        Text((0..n).map(|_| self.alternative(depth)).collect())
    }

    /// Lists and dicts beside one another, which merge.
    pub fn merging(&mut self, depth: usize) -> Text {
        let n = self.rng.from_to(2, 3);
        Text((0..n).map(|_| self.mergeable(depth)).collect())
    }

    pub fn mergeable(&mut self, depth: usize) -> Alternative {
        let part = |m: &mut Self| match depth {
            0 => one(m.leaf()),
            d if m.rng.percent(60) => m.merging(d - 1),
            d => m.text(d - 1),
        };
        match self.rng.below(5) {
            0 | 1 => {
                let item = part(self);
                with(Name::List, vec![item])
            }
            2 | 3 => {
                let (k, v) = (part(self), part(self));
                with(Name::Dict, vec![k, v])
            }
            _ => self.alternative(depth),
        }
    }

    pub fn written(&mut self, text: &Text) -> Vec<u8> {
        let style = self.rng.below(4);
        let mut out = String::new();
        self.write(text, style, &mut out);
        out.into_bytes()
    }

    pub fn gap(&mut self, style: usize, usual: bool, out: &mut String) {
        let n = match style {
            0 | 1 => 0,
            2 => usize::from(usual),
            _ => *self.rng.pick(&[0, 0, 0, 1, 2]),
        };
        out.extend(std::iter::repeat(' ').take(n));
    }

    pub fn write(&mut self, text: &Text, style: usize, out: &mut String) {
        for (i, a) in text.0.iter().enumerate() {
            if i != 0 {
                self.gap(style, true, out);
                out.push('|');
            }
            self.gap(style, i != 0, out);
            out.push_str(&word(a.name));
            let (args, many) = match &a.args {
                Args::Bare => continue,
                Args::Many(t) => (std::slice::from_ref(&**t), true),
                Args::Texts(ts) => (&ts[..], false),
            };
            self.gap(style, false, out);
            out.push('[');
            for (j, t) in args.iter().enumerate() {
                if j != 0 {
                    out.push(',');
                    self.gap(style, true, out);
                }
                self.write(t, style, out);
            }
            if many {
                out.push(',');
                self.gap(style, true, out);
                out.push_str("...");
            }
            self.gap(style, false, out);
            out.push(']');
        }
        self.gap(style, false, out);
    }
}

pub fn word(name: Name) -> String {
    match name {
        Name::Int => "int".to_owned(),
        Name::Bool => "bool".to_owned(),
        Name::Str => "str".to_owned(),
        Name::None => "None".to_owned(),
        Name::Type => "type".to_owned(),
        Name::Any => "typing.Any".to_owned(),
        Name::Never => "typing.Never".to_owned(),
        Name::Callable => "typing.Callable".to_owned(),
        Name::Iterable => "typing.Iterable".to_owned(),
        Name::List => "list".to_owned(),
        Name::Set => "set".to_owned(),
        Name::Dict => "dict".to_owned(),
        Name::Tuple => "tuple".to_owned(),
        Name::Host(n) => format!("host.{n}"),
        Name::Custom(n) => format!("custom.{n}"),
    }
}

/// A text of few host types, for unions where host types share names.
pub fn host_text(seed: u64, index: u64) -> Text {
    fn union(rng: &mut Rng, depth: usize) -> Text {
        let n = rng.from_to(1, 4);
        Text((0..n).map(|_| part(rng, depth)).collect())
    }
    fn part(rng: &mut Rng, depth: usize) -> Alternative {
        if depth == 0 || rng.percent(60) {
            return bare(Name::Host(rng.from_to(16, 19) as u16));
        }
        let name = *rng.pick(&[Name::List, Name::Set, Name::Tuple, Name::Iterable]);
        with(name, vec![union(rng, depth - 1)])
    }
    let mut rng = Rng::new(seed, index);
    let depth = rng.below(3);
    union(&mut rng, depth)
}
