//! Jobs from a seed. Job number `i` of seed `s` is always the same job, whatever
//! else is generated.

use std::collections::HashMap;

use crate::rules::job;
use crate::rules::job::Read;
use crate::rules::text::Text;
use crate::typing::custom::Entry;
use crate::values::heap::CellText;

mod faults;
mod limits;
mod texts;
mod values;

pub use texts::host_text;
pub use texts::word;

/// Most steps of one check, counted without early stops.
const MOST_STEPS: u64 = 40_000;
const RARE_MOST_STEPS: u64 = 1_000_000;

const STEP: u64 = 0x9e37_79b9_7f4a_7c15;

pub struct Rng(u64);

/// The mixing step of SplitMix64.
fn mixed(mut z: u64) -> u64 {
    z = (z ^ (z >> 30)).wrapping_mul(0xbf58_476d_1ce4_e5b9);
    z = (z ^ (z >> 27)).wrapping_mul(0x94d0_49bb_1331_11eb);
    z ^ (z >> 31)
}

impl Rng {
    /// Seed and number are mixed, so that the jobs' streams do not overlap.
    pub fn new(seed: u64, index: u64) -> Rng {
        Rng(mixed(
            mixed(seed.wrapping_add(STEP)) ^ mixed(index.wrapping_add(2)),
        ))
    }

    pub fn next(&mut self) -> u64 {
        self.0 = self.0.wrapping_add(STEP);
        mixed(self.0)
    }

    /// From 0 up to, not including, `n`.
    pub fn below(&mut self, n: usize) -> usize {
        (self.next() % n as u64) as usize
    }

    /// From `a` to `b`, both included.
    pub fn from_to(&mut self, a: usize, b: usize) -> usize {
        a + self.below(b - a + 1)
    }

    pub fn percent(&mut self, p: usize) -> bool {
        self.below(100) < p
    }

    pub fn pick<'a, T>(&mut self, of: &'a [T]) -> &'a T {
        &of[self.below(of.len())]
    }
}

/// A job's records before they are bytes.
#[derive(Default)]
pub struct Records {
    pub cells: Vec<CellText>,
    pub customs: Vec<Entry>,
    pub texts: Vec<Vec<u8>>,
    pub queries: Vec<(u16, u16)>,
}

fn record(tag: u8, body: &[u8], job: &mut Vec<u8>) {
    job.push(tag);
    job.extend((body.len() as u16).to_be_bytes());
    job.extend(body);
}

impl Records {
    pub fn bytes(&self) -> Vec<u8> {
        let mut job = Vec::new();
        for c in &self.cells {
            let mut body = c.number.to_be_bytes().to_vec();
            body.push(c.flags);
            body.extend(c.mark.to_be_bytes());
            c.parts.iter().for_each(|p| body.extend(p.to_be_bytes()));
            record(1, &body, &mut job);
        }
        for c in &self.customs {
            if let Entry::Mark { number, mark } = c {
                let body = [&number.to_be_bytes()[..], &mark.to_be_bytes()[..]].concat();
                record(2, &body, &mut job);
            }
        }
        for c in &self.customs {
            if let Entry::Range { low, high } = c {
                let body = [low.to_be_bytes(), high.to_be_bytes()].concat();
                record(3, &body, &mut job);
            }
        }
        for t in &self.texts {
            record(4, t, &mut job);
        }
        for (a, v) in &self.queries {
            let body = [a.to_be_bytes(), v.to_be_bytes()].concat();
            record(5, &body, &mut job);
        }
        job
    }
}

/// Makes one job.
struct Maker<'a> {
    rng: &'a mut Rng,
    records: Records,
}

/// A query that could take more steps than `most`.
fn slow(
    read: &Read,
    query: (u16, u16),
    most: u64,
    known: &mut HashMap<(usize, usize), u64>,
) -> bool {
    let (a, v) = (query.0 as usize, query.1 as usize);
    match read.annotations.get(a) {
        Some(x) if v < read.cells.len() => read.world().cost(x.ty, v, known) > most,
        _ => false,
    }
}

/// Leaves out the queries that would take too long.
fn spare(records: &mut Records, most: u64) {
    if let Ok(read) = job::read(&records.bytes()) {
        let mut known = HashMap::new();
        records
            .queries
            .retain(|q| !slow(&read, *q, most, &mut known));
    }
}

fn usual(m: &mut Maker) {
    m.customs();
    let depth = *m.rng.pick(&[0, 1, 1, 2, 2, 2, 3, 3, 4, 5]);
    let merges = m.rng.percent(35);
    let texts: Vec<Text> = (0..m.rng.from_to(1, 4))
        .map(|_| {
            if merges {
                m.merging(depth.min(3))
            } else {
                m.text(depth)
            }
        })
        .filter(|t| !t.0.is_empty())
        .collect();
    for t in &texts {
        let bytes = m.written(t);
        m.records.texts.push(bytes);
    }
    for t in &texts {
        for _ in 0..m.rng.from_to(1, 3) {
            m.value(t);
        }
    }
    for _ in 0..m.rng.below(3) {
        m.any_cell();
    }
    if m.rng.percent(30) {
        let percent = *m.rng.pick(&[5, 20, 50]);
        m.tangle(percent);
    }
    let most = m.rng.from_to(4, 24);
    m.queries(most);
}

/// Job `index` of a seed.
pub fn job(seed: u64, index: u64) -> Vec<u8> {
    let mut rng = Rng::new(seed, index);
    let kind = rng.below(100);
    let most = if rng.percent(1) {
        RARE_MOST_STEPS
    } else {
        MOST_STEPS
    };
    let mut m = Maker {
        rng: &mut rng,
        records: Records::default(),
    };
    match kind {
        0..=6 => m.limits(),
        _ => usual(&mut m),
    }
    match kind {
        80..=89 => m.spoil_text(),
        90..=94 => m.spoil_cell(),
        95 if m.rng.percent(20) => m.too_many(),
        _ => {}
    }
    let mut records = m.records;
    spare(&mut records, most);
    let mut job = records.bytes();
    if kind >= 96 {
        faults::spoil_bytes(&mut job, &mut rng);
        // A spoilt job may have become a slow one.
        if let Ok(read) = job::read(&job) {
            let mut known = HashMap::new();
            let mut queries = read.queries.iter();
            if queries.any(|q| slow(&read, *q, RARE_MOST_STEPS, &mut known)) {
                job.clear();
            }
        }
    }
    if kind == 99 && rng.percent(5) {
        job.resize(60_000 + rng.below(3), 0);
    }
    job
}
