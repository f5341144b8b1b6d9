//! Which values are members of a type, straight from what each kind means, and a
//! bound for what asking may cost.

use std::collections::HashMap;

use super::nodes::entry;
use super::types::Alt;
use super::types::Types;
use crate::typing::custom::Entry;
use crate::values::heap::CellText;

pub struct World<'a> {
    pub types: &'a Types,
    pub cells: &'a [CellText],
    pub customs: &'a [Entry],
}

impl World<'_> {
    pub fn member(&self, t: usize, v: usize) -> bool {
        self.types.rows[t].alts.iter().any(|alt| self.has(alt, v))
    }

    fn has(&self, alt: &Alt, v: usize) -> bool {
        let cell = &self.cells[v];
        let all = |t: usize| cell.parts.iter().all(|p| self.member(t, *p as usize));
        let every_other = |from: usize, t: usize| {
            let mut of = cell.parts.iter().skip(from).step_by(2);
            of.all(|p| self.member(t, *p as usize))
        };
        match alt {
            Alt::Any => true,
            Alt::Plain(n) => cell.number == *n,
            Alt::Iter(_) => cell.flags & 2 != 0,
            Alt::Callable => cell.flags & 1 != 0,
            Alt::Type => cell.flags & 4 != 0,
            Alt::List(t) => cell.number == 5 && all(*t),
            Alt::Set(t) => cell.number == 7 && all(*t),
            Alt::Dict(k, w) => cell.number == 6 && every_other(0, *k) && every_other(1, *w),
            Alt::TupleOf(t) => cell.number == 8 && all(*t),
            Alt::Tuple(ts) => {
                let mut places = cell.parts.iter().zip(ts);
                cell.number == 8
                    && cell.parts.len() == ts.len()
                    && places.all(|(p, t)| self.member(*t, *p as usize))
            }
            Alt::Custom(n) => entry(self.customs, *n).says(cell.number, cell.flags, cell.mark),
        }
    }

    /// At least the steps that any order of asking takes, without early stops.
    pub fn cost(&self, t: usize, v: usize, known: &mut HashMap<(usize, usize), u64>) -> u64 {
        if let Some(cost) = known.get(&(t, v)) {
            return *cost;
        }
        let cell = &self.cells[v];
        let mut cost = 1u64;
        for alt in &self.types.rows[t].alts {
            let asked: Vec<usize> = match alt {
                Alt::List(t) if cell.number == 5 => vec![*t],
                Alt::Set(t) if cell.number == 7 => vec![*t],
                Alt::TupleOf(t) if cell.number == 8 => vec![*t],
                Alt::Dict(k, w) if cell.number == 6 => vec![*k, *w],
                Alt::Tuple(ts) if cell.number == 8 && ts.len() == cell.parts.len() => ts.clone(),
                _ => vec![],
            };
            cost = cost.saturating_add(1);
            if asked.is_empty() {
                continue;
            }
            for (i, p) in cell.parts.iter().enumerate() {
                let part = self.cost(asked[i % asked.len()], *p as usize, known);
                cost = cost.saturating_add(part);
            }
        }
        known.insert((t, v), cost);
        cost
    }
}
