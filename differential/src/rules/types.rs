//! Types as numbered lists of alternatives, with the limits of the type calls.

use std::collections::HashMap;

use super::text::Alternative;
use super::text::Args;
use super::text::Name;
use super::text::Text;
use super::BAD_FORM;
use super::NO_ROOM;
use super::TOO_DEEP;
use super::TOO_HEAVY;
use super::TOO_WIDE;

pub const NEVER: usize = 0;
pub const ANY: usize = 1;

const MOST_DEEP: u64 = 32;
const MOST_WIDE: usize = 64;
const MOST_HEAVY: u64 = 4096;
const MOST_TYPES: usize = 1024;
const MOST_PLACES: usize = 8192;

/// In the order of the kinds; the derived order is the kept one.
#[derive(Clone, Debug, PartialEq, Eq, Hash, PartialOrd, Ord)]
pub enum Alt {
    Any,
    Plain(u16),
    Iter(usize),
    Callable,
    Type,
    List(usize),
    Tuple(Vec<usize>),
    TupleOf(usize),
    Dict(usize, usize),
    Custom(u16),
    Set(usize),
}

impl Alt {
    fn parts(&self) -> Vec<usize> {
        match self {
            Alt::Any | Alt::Plain(_) | Alt::Callable | Alt::Type | Alt::Custom(_) => vec![],
            Alt::Iter(t) | Alt::List(t) | Alt::TupleOf(t) | Alt::Set(t) => vec![*t],
            Alt::Dict(k, v) => vec![*k, *v],
            Alt::Tuple(ts) => ts.clone(),
        }
    }

    fn places(&self) -> usize {
        match self {
            Alt::Tuple(ts) => 1 + ts.len(),
            _ => 1,
        }
    }
}

#[derive(Clone, Debug)]
pub struct Row {
    pub alts: Vec<Alt>,
    pub depth: u64,
    pub weight: u64,
}

pub struct Types {
    pub rows: Vec<Row>,
    numbers: HashMap<Vec<Alt>, usize>,
    places: usize,
}

/// One call: what it would add, after the rows that stand.
struct Call<'a> {
    types: &'a Types,
    rows: Vec<Row>,
    numbers: HashMap<Vec<Alt>, usize>,
    joined: HashMap<(usize, usize), usize>,
}

impl Call<'_> {
    fn row(&self, t: usize) -> &Row {
        let standing = self.types.rows.len();
        if t < standing {
            &self.types.rows[t]
        } else {
            &self.rows[t - standing]
        }
    }

    fn number(&mut self, alts: Vec<Alt>) -> usize {
        if let Some(t) = self.types.numbers.get(&alts).or(self.numbers.get(&alts)) {
            return *t;
        }
        let mut depth = 1;
        let mut weight = u64::from(alts.len() != 1);
        for alt in &alts {
            let parts = alt.parts();
            depth = parts
                .iter()
                .map(|p| 1 + self.row(*p).depth)
                .fold(depth, u64::max);
            weight += 1 + parts.iter().map(|p| self.row(*p).weight).sum::<u64>();
        }
        let t = self.types.rows.len() + self.rows.len();
        self.numbers.insert(alts.clone(), t);
        self.rows.push(Row {
            alts,
            depth,
            weight,
        });
        t
    }

    fn union2(&mut self, a: usize, b: usize) -> usize {
        if a == ANY || b == ANY {
            return ANY;
        }
        if a == NEVER || a == b {
            return b;
        }
        if b == NEVER {
            return a;
        }
        if let Some(t) = self.joined.get(&(a, b)) {
            return *t;
        }
        let (left, right) = (self.row(a).alts.clone(), self.row(b).alts.clone());
        let list = |alts: &[Alt]| {
            alts.iter().find_map(|x| match x {
                Alt::List(t) => Some(*t),
                _ => None,
            })
        };
        let dict = |alts: &[Alt]| {
            alts.iter().find_map(|x| match x {
                Alt::Dict(k, v) => Some((*k, *v)),
                _ => None,
            })
        };
        let mut both: Vec<Alt> = left
            .iter()
            .chain(&right)
            .filter(|x| !matches!(x, Alt::List(_) | Alt::Dict(..)))
            .cloned()
            .collect();
        match (list(&left), list(&right)) {
            (Some(x), Some(y)) => both.push(Alt::List(self.union2(x, y))),
            (x, y) => both.extend(x.or(y).map(Alt::List)),
        }
        match (dict(&left), dict(&right)) {
            (Some((k, v)), Some((l, w))) => {
                let keys = self.union2(k, l);
                let values = self.union2(v, w);
                both.push(Alt::Dict(keys, values));
            }
            (x, y) => both.extend(x.or(y).map(|(k, v)| Alt::Dict(k, v))),
        }
        both.sort();
        both.dedup();
        let t = self.number(both);
        self.joined.insert((a, b), t);
        t
    }

    /// The first reason against what the call would add.
    fn refusal(&self) -> Option<u8> {
        let wide = |r: &Row| {
            r.alts.len() > MOST_WIDE
                || r.alts
                    .iter()
                    .any(|a| matches!(a, Alt::Tuple(ts) if ts.len() > MOST_WIDE))
        };
        let places: usize = self
            .rows
            .iter()
            .flat_map(|r| &r.alts)
            .map(Alt::places)
            .sum();
        if self.rows.iter().any(|r| r.depth > MOST_DEEP) {
            Some(TOO_DEEP)
        } else if self.rows.iter().any(wide) {
            Some(TOO_WIDE)
        } else if self.rows.iter().any(|r| r.weight > MOST_HEAVY) {
            Some(TOO_HEAVY)
        } else if self.types.rows.len() + self.rows.len() > MOST_TYPES
            || self.types.places + places > MOST_PLACES
        {
            Some(NO_ROOM)
        } else {
            None
        }
    }
}

impl Types {
    pub fn new() -> Types {
        let rows = vec![
            Row {
                alts: vec![],
                depth: 1,
                weight: 1,
            },
            Row {
                alts: vec![Alt::Any],
                depth: 1,
                weight: 1,
            },
        ];
        Types {
            numbers: HashMap::from([(vec![], NEVER), (vec![Alt::Any], ANY)]),
            rows,
            places: 1,
        }
    }

    fn call(&mut self, made: impl FnOnce(&mut Call) -> usize) -> Result<usize, u8> {
        let mut call = Call {
            types: self,
            rows: Vec::new(),
            numbers: HashMap::new(),
            joined: HashMap::new(),
        };
        let t = made(&mut call);
        if let Some(refusal) = call.refusal() {
            return Err(refusal);
        }
        let (rows, numbers) = (call.rows, call.numbers);
        self.places += rows
            .iter()
            .flat_map(|r| &r.alts)
            .map(Alt::places)
            .sum::<usize>();
        self.rows.extend(rows);
        self.numbers.extend(numbers);
        Ok(t)
    }

    pub fn make(&mut self, alt: Alt) -> Result<usize, u8> {
        if let Alt::Plain(0 | 9..=15) = alt {
            return Err(BAD_FORM);
        }
        self.call(|c| c.number(vec![alt]))
    }

    pub fn union2(&mut self, a: usize, b: usize) -> Result<usize, u8> {
        self.call(|c| c.union2(a, b))
    }

    /// A refusal with the first byte of the alternative whose call was refused.
    pub fn text(&mut self, text: &Text) -> Result<usize, (u8, usize)> {
        let mut whole = None;
        for alternative in &text.0 {
            let t = self.alternative(alternative)?;
            whole = Some(match whole {
                None => t,
                Some(before) => self.union2(before, t).map_err(|n| (n, alternative.at))?,
            });
        }
        Ok(whole.unwrap_or(NEVER))
    }

    fn alternative(&mut self, a: &Alternative) -> Result<usize, (u8, usize)> {
        let args = match &a.args {
            Args::Bare => vec![],
            Args::Many(t) => vec![self.text(t)?],
            Args::Texts(ts) => ts.iter().map(|t| self.text(t)).collect::<Result<_, _>>()?,
        };
        let arg = |i: usize| args.get(i).copied().unwrap_or(ANY);
        let alt = match a.name {
            Name::Any => return Ok(ANY),
            Name::Never => return Ok(NEVER),
            Name::Int => Alt::Plain(1),
            Name::Bool => Alt::Plain(2),
            Name::None => Alt::Plain(3),
            Name::Str => Alt::Plain(4),
            Name::Host(n) => Alt::Plain(n),
            Name::Custom(n) => Alt::Custom(n),
            Name::Type => Alt::Type,
            Name::Callable => Alt::Callable,
            Name::Iterable => Alt::Iter(arg(0)),
            Name::List => Alt::List(arg(0)),
            Name::Set => Alt::Set(arg(0)),
            Name::Dict => Alt::Dict(arg(0), arg(1)),
            Name::Tuple => match a.args {
                Args::Texts(_) => Alt::Tuple(args),
                _ => Alt::TupleOf(arg(0)),
            },
        };
        self.make(alt).map_err(|n| (n, a.at))
    }

    /// The type as text; alternatives sorted by their texts, so that order tells nothing.
    pub fn show(&self, t: usize) -> String {
        let one = |alt: &Alt| match alt {
            Alt::Any => "typing.Any".to_owned(),
            Alt::Plain(n) => plain_name(*n),
            Alt::Iter(t) => format!("typing.Iterable[{}]", self.show(*t)),
            Alt::Callable => "typing.Callable".to_owned(),
            Alt::Type => "type".to_owned(),
            Alt::List(t) => format!("list[{}]", self.show(*t)),
            Alt::Set(t) => format!("set[{}]", self.show(*t)),
            Alt::Dict(k, v) => format!("dict[{}, {}]", self.show(*k), self.show(*v)),
            Alt::TupleOf(t) => format!("tuple[{}, ...]", self.show(*t)),
            Alt::Tuple(ts) => {
                let each: Vec<String> = ts.iter().map(|t| self.show(*t)).collect();
                format!("tuple[{}]", each.join(", "))
            }
            Alt::Custom(n) => format!("custom.{n}"),
        };
        joined(self.rows[t].alts.iter().map(one).collect())
    }
}

pub fn plain_name(number: u16) -> String {
    match number {
        1 => "int".to_owned(),
        2 => "bool".to_owned(),
        3 => "None".to_owned(),
        4 => "str".to_owned(),
        n => format!("host.{n}"),
    }
}

pub fn joined(mut alternatives: Vec<String>) -> String {
    if alternatives.is_empty() {
        return "typing.Never".to_owned();
    }
    alternatives.sort();
    alternatives.join(" | ")
}
