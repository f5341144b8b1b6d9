//! Jobs: records of a tag, a length and a body; frames, order and counts first,
//! then each record in turn.

use super::members::World;
use super::nodes::Compiled;
use super::nodes::Store;
use super::run::run;
use super::text;
use super::text::Text;
use super::types::Types;
use super::BAD_FORM;
use super::BAD_JOB;
use super::BAD_TEXT;
use super::NO_NODE;
use super::NO_VALUE;
use crate::typing::custom::Entry;
use crate::values::heap::CellText;

const LONGEST: usize = 60_000;
const MOST_CELLS: usize = 4096;
const MOST_ENTRIES: usize = 64;

/// A bad record: its number, the refusal and the byte of a text's fault.
#[derive(Clone, Copy, Debug, PartialEq, Eq)]
pub struct Bad(pub usize, pub u8, pub usize);

impl Bad {
    pub fn line(&self) -> String {
        format!("bad {} {} {}\n", self.0, self.1, self.2)
    }
}

pub struct Annotation {
    pub bytes: Vec<u8>,
    pub text: Text,
    pub ty: usize,
    pub compiled: Compiled,
}

/// A job without a bad record, read, typed and compiled.
pub struct Read {
    pub cells: Vec<CellText>,
    pub customs: Vec<Entry>,
    pub annotations: Vec<Annotation>,
    pub queries: Vec<(u16, u16)>,
    pub types: Types,
    pub store: Store,
}

fn u16_at(body: &[u8], at: usize) -> u16 {
    u16::from_be_bytes([body[at], body[at + 1]])
}

fn i64_at(body: &[u8], at: usize) -> i64 {
    i64::from_be_bytes(body[at..at + 8].try_into().expect("eight bytes"))
}

fn fits(tag: u8, long: usize) -> bool {
    match tag {
        1 => long >= 11 && long % 2 == 1,
        2 => long == 10,
        3 => long == 16,
        4 => true,
        5 => long == 4,
        _ => false,
    }
}

/// The records' tags and bodies, if frames, order and counts are right.
pub fn frames(job: &[u8]) -> Result<Vec<(u8, &[u8])>, Bad> {
    if job.len() > LONGEST {
        return Err(Bad(0, BAD_JOB, 0));
    }
    let mut records: Vec<(u8, &[u8])> = Vec::new();
    let mut counts = [0usize; 6];
    let mut at = 0;
    while at < job.len() {
        let bad = Bad(records.len(), BAD_JOB, 0);
        if job.len() - at < 3 {
            return Err(bad);
        }
        let tag = job[at];
        let long = u16_at(job, at + 1) as usize;
        let body = job.get(at + 3..at + 3 + long).ok_or(bad)?;
        if !fits(tag, long) || records.last().is_some_and(|(before, _)| *before > tag) {
            return Err(bad);
        }
        counts[tag as usize] += 1;
        if counts[1] > MOST_CELLS || counts[2] > MOST_ENTRIES || counts[3] > MOST_ENTRIES {
            return Err(bad);
        }
        records.push((tag, body));
        at += 3 + long;
    }
    Ok(records)
}

fn cell(body: &[u8], cells: usize) -> Result<CellText, u8> {
    let parts: Vec<u16> = (11..body.len())
        .step_by(2)
        .map(|i| u16_at(body, i))
        .collect();
    let cell = CellText {
        number: u16_at(body, 0),
        flags: body[2],
        mark: i64_at(body, 3),
        parts,
    };
    if cell.parts.iter().any(|p| *p as usize >= cells) {
        return Err(NO_VALUE);
    }
    let formed = match cell.number {
        0 | 9..=15 => false,
        1 => cell.flags == 0 || cell.flags == 8 && cell.mark == 0,
        2 => cell.flags == 0 && (0..=1).contains(&cell.mark),
        3 | 4 => cell.flags == 0 && cell.mark == 0,
        5..=8 => cell.flags == 2 && cell.mark == 0,
        _ => cell.flags <= 7,
    };
    let parted = match cell.number {
        5 | 7 | 8 => true,
        6 => cell.parts.len() % 2 == 0,
        _ => cell.parts.is_empty(),
    };
    if formed && parted {
        Ok(cell)
    } else {
        Err(BAD_FORM)
    }
}

pub fn read(job: &[u8]) -> Result<Read, Bad> {
    let records = frames(job)?;
    let cells = records.iter().filter(|(tag, _)| *tag == 1).count();
    let mut read = Read {
        cells: Vec::new(),
        customs: Vec::new(),
        annotations: Vec::new(),
        queries: Vec::new(),
        types: Types::new(),
        store: Store::new(),
    };
    for (r, (tag, body)) in records.iter().enumerate() {
        match tag {
            1 => read
                .cells
                .push(cell(body, cells).map_err(|n| Bad(r, n, 0))?),
            2 => read.customs.push(Entry::Mark {
                number: u16_at(body, 0),
                mark: i64_at(body, 2),
            }),
            3 => read.customs.push(Entry::Range {
                low: i64_at(body, 0),
                high: i64_at(body, 8),
            }),
            4 => read.annotation(r, body)?,
            _ => read.queries.push((u16_at(body, 0), u16_at(body, 2))),
        }
    }
    Ok(read)
}

impl Read {
    fn annotation(&mut self, r: usize, bytes: &[u8]) -> Result<(), Bad> {
        let text = text::read(bytes).map_err(|at| Bad(r, BAD_TEXT, at))?;
        let ty = self.types.text(&text).map_err(|(n, at)| Bad(r, n, at))?;
        let compiled = self
            .store
            .alloc_ty(&self.types, ty, &self.customs)
            .map_err(|n| Bad(r, n, 0))?;
        self.annotations.push(Annotation {
            bytes: bytes.to_vec(),
            text,
            ty,
            compiled,
        });
        Ok(())
    }

    pub fn world(&self) -> World<'_> {
        World {
            types: &self.types,
            cells: &self.cells,
            customs: &self.customs,
        }
    }

    /// The answer lines, by a test for what is a member.
    pub fn lines(&self, member: impl Fn(usize, usize) -> bool) -> Vec<String> {
        let answer = |a: usize, v: usize| {
            if a >= self.annotations.len() {
                format!("refused {NO_NODE}")
            } else if v >= self.cells.len() {
                format!("refused {NO_VALUE}")
            } else if member(a, v) {
                "yes".to_owned()
            } else {
                "no".to_owned()
            }
        };
        self.queries
            .iter()
            .map(|(a, v)| format!("{a} {v} {}\n", answer(*a as usize, *v as usize)))
            .collect()
    }

    /// The answer lines by running the nodes that the rules compile.
    pub fn runs(&self) -> Vec<String> {
        let world = self.world();
        self.lines(|a, v| run(&self.store, self.annotations[a].compiled.root, &world, v))
    }

    /// The crate's departure by the rules: the tree of each text and the answer
    /// lines where a wildcard side is dropped from a union of two without None.
    pub fn dropping(&self) -> (Vec<String>, Vec<String>) {
        let mut store = Store::that_drops();
        let mut roots = Vec::new();
        for a in &self.annotations {
            if let Ok(compiled) = store.alloc_ty(&self.types, a.ty, &self.customs) {
                roots.push(compiled.root);
            }
        }
        let world = self.world();
        let lines = self.lines(|a, v| run(&store, roots[a], &world, v));
        (roots.iter().map(|r| store.show(*r)).collect(), lines)
    }

    /// The answer lines by the rules alone.
    pub fn answers(&self) -> Vec<String> {
        let world = self.world();
        self.lines(|a, v| world.member(self.annotations[a].ty, v))
    }
}
