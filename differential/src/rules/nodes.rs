//! Compiled nodes in a sharing store: which nodes a type is compiled to, in what
//! order they are written and how many places they take.

use std::collections::HashMap;

use super::types::Alt;
use super::types::Types;
use super::types::ANY;
use super::NO_ROOM;
use crate::typing::custom::Entry;

const MOST_PLACES: usize = 8192;
const MOST_COMPILED: usize = 256;

#[derive(Clone, Debug, PartialEq, Eq, Hash)]
pub struct Node {
    pub kind: &'static str,
    pub number: u16,
    pub kids: Vec<usize>,
}

pub struct Store {
    pub nodes: Vec<Node>,
    numbers: HashMap<Node, usize>,
    used: usize,
    compiled: usize,
    /// Drops a wildcard side as the crate does, and has no limit: such a store
    /// only tells what the crate's departure comes to.
    drops: bool,
}

/// A compiled annotation.
#[derive(Clone, Copy, Debug)]
pub struct Compiled {
    pub root: usize,
    /// The crate drops a wildcard side somewhere in it.
    pub departs: bool,
}

struct Compiling<'a> {
    store: &'a mut Store,
    types: &'a Types,
    customs: &'a [Entry],
    departs: bool,
}

pub fn entry(customs: &[Entry], number: u16) -> Entry {
    customs
        .get(number as usize)
        .copied()
        .unwrap_or(Entry::Missing)
}

impl Store {
    pub fn new() -> Store {
        Store {
            nodes: Vec::new(),
            numbers: HashMap::new(),
            used: 0,
            compiled: 0,
            drops: false,
        }
    }

    pub fn that_drops() -> Store {
        Store {
            drops: true,
            ..Store::new()
        }
    }

    /// Places taken.
    pub fn used(&self) -> usize {
        self.used
    }

    fn alloc(&mut self, kind: &'static str, number: u16, kids: Vec<usize>) -> usize {
        let node = Node { kind, number, kids };
        if let Some(n) = self.numbers.get(&node) {
            return *n;
        }
        self.used += 1 + node.kids.len();
        assert!(
            self.drops || self.used <= MOST_PLACES,
            "a granted compile lacks a place"
        );
        let n = self.nodes.len();
        self.numbers.insert(node.clone(), n);
        self.nodes.push(node);
        n
    }

    pub fn alloc_ty(&mut self, types: &Types, t: usize, customs: &[Entry]) -> Result<Compiled, u8> {
        let free = MOST_PLACES.saturating_sub(self.used) as u64;
        let full = self.compiled == MOST_COMPILED || free < 2 * types.rows[t].weight;
        if full && !self.drops {
            return Err(NO_ROOM);
        }
        self.compiled += 1;
        let mut compiling = Compiling {
            store: self,
            types,
            customs,
            departs: false,
        };
        let root = compiling.ty(t);
        let departs = compiling.departs;
        Ok(Compiled { root, departs })
    }

    pub fn show(&self, n: usize) -> String {
        let node = &self.nodes[n];
        let kids: Vec<String> = node.kids.iter().map(|k| self.show(*k)).collect();
        match (node.kind, kids.is_empty()) {
            ("StarlarkTypeIdMatcher" | "Custom", _) => format!("{}({})", node.kind, node.number),
            (kind, true) => kind.to_owned(),
            (kind, false) => format!("{}({})", kind, kids.join(", ")),
        }
    }
}

impl Compiling<'_> {
    fn leaf(&mut self, kind: &'static str) -> usize {
        self.store.alloc(kind, 0, vec![])
    }

    fn by_id(&mut self, number: u16) -> usize {
        self.store.alloc("StarlarkTypeIdMatcher", number, vec![])
    }

    fn over(&mut self, kind: &'static str, kids: Vec<usize>) -> usize {
        self.store.alloc(kind, 0, kids)
    }

    fn is_wildcard(&self, n: usize) -> bool {
        self.store.nodes[n].kind == "IsAny"
    }

    /// The type number where the type is one plain type.
    fn plain(&self, t: usize) -> Option<u16> {
        match &self.types.rows[t].alts[..] {
            [Alt::Plain(n)] => Some(*n),
            _ => None,
        }
    }

    fn ty(&mut self, t: usize) -> usize {
        let types = self.types;
        match &types.rows[t].alts[..] {
            [] => self.leaf("IsNever"),
            [one] => self.basic(one),
            [Alt::Plain(3), other] | [other, Alt::Plain(3)] => self.none_or(other),
            [a, b] => {
                let kids = vec![self.basic(a), self.basic(b)];
                if kids.iter().any(|k| self.is_wildcard(*k)) {
                    self.departs = true;
                    match (self.store.drops, self.is_wildcard(kids[0])) {
                        (false, _) => self.leaf("IsAny"),
                        (true, true) => kids[1],
                        (true, false) => kids[0],
                    }
                } else {
                    self.over("IsAnyOfTwo", kids)
                }
            }
            many => {
                let kids: Vec<usize> = many.iter().map(|a| self.basic(a)).collect();
                if kids.iter().any(|k| self.is_wildcard(*k)) {
                    self.leaf("IsAny")
                } else {
                    self.over("IsAnyOf", kids)
                }
            }
        }
    }

    fn none_or(&mut self, other: &Alt) -> usize {
        let none = self.leaf("IsNone");
        let second = match other {
            Alt::Plain(4) => self.leaf("IsStr"),
            Alt::Plain(1) => self.leaf("IsInt"),
            Alt::Plain(n) => self.by_id(*n),
            other => self.basic(other),
        };
        self.over("IsAnyOfTwo", vec![none, second])
    }

    fn basic(&mut self, alt: &Alt) -> usize {
        match alt {
            Alt::Any => self.leaf("IsAny"),
            Alt::Plain(1) => self.leaf("IsInt"),
            Alt::Plain(2) => self.leaf("IsBool"),
            Alt::Plain(3) => self.leaf("IsNone"),
            Alt::Plain(4) => self.leaf("IsStr"),
            Alt::Plain(n) => self.by_id(*n),
            Alt::Iter(_) => self.leaf("IsIterable"),
            Alt::Callable => self.leaf("IsCallable"),
            Alt::Type => self.leaf("IsType"),
            Alt::List(t) => self.items(*t, "IsList", "IsListOf"),
            Alt::Set(t) => self.items(*t, "IsSet", "IsSetOf"),
            Alt::Dict(k, v) => self.dict(*k, *v),
            Alt::TupleOf(t) => self.tuple_of(*t),
            Alt::Tuple(ts) => self.tuple(ts),
            Alt::Custom(n) if entry(self.customs, *n).is_wildcard() => self.leaf("IsAny"),
            Alt::Custom(n) => self.store.alloc("Custom", *n, vec![]),
        }
    }

    fn items(&mut self, t: usize, bare: &'static str, of: &'static str) -> usize {
        if t == ANY {
            return self.leaf(bare);
        }
        let item = match self.plain(t) {
            Some(4) => self.leaf("IsStr"),
            Some(n) => self.by_id(n),
            None => self.ty(t),
        };
        if self.is_wildcard(item) {
            self.leaf(bare)
        } else {
            self.over(of, vec![item])
        }
    }

    fn dict(&mut self, k: usize, v: usize) -> usize {
        if k == ANY && v == ANY {
            return self.leaf("IsDict");
        }
        let key = match self.plain(k) {
            Some(4) => self.leaf("IsStr"),
            Some(n) => self.by_id(n),
            None => self.ty(k),
        };
        let value = self.ty(v);
        if self.is_wildcard(key) && self.is_wildcard(value) {
            self.leaf("IsDict")
        } else {
            self.over("IsDictOf", vec![key, value])
        }
    }

    fn tuple_of(&mut self, t: usize) -> usize {
        if t == ANY {
            return self.by_id(8);
        }
        let item = match self.plain(t) {
            Some(n) => self.by_id(n),
            None => self.ty(t),
        };
        self.over("IsTupleOf", vec![item])
    }

    fn tuple(&mut self, ts: &[usize]) -> usize {
        let kids = match ts {
            [a, b] => match (self.plain(*a), self.plain(*b)) {
                (Some(a), Some(b)) => vec![self.by_id(a), self.by_id(b)],
                _ => vec![self.ty(*a), self.ty(*b)],
            },
            ts => ts.iter().map(|t| self.ty(*t)).collect(),
        };
        let kind = match ts.len() {
            0 => "IsTupleElems0",
            1 => "IsTupleElems1",
            2 => "IsTupleElems2",
            _ => "IsTupleElems",
        };
        self.over(kind, kids)
    }
}
