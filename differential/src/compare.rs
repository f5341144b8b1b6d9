//! Compares the crate's text, the rules and the port's programs on jobs, and
//! finds the smallest input of each difference.

use std::collections::BTreeMap;
use std::ops::Range;

use crate::generate;
use crate::oracle;
use crate::oracle::Answers;
use crate::oracle::Names;
use crate::port;
use crate::rules::job;
use crate::rules::job::Bad;
use crate::rules::job::Read;
use crate::rules::types::Types;
use crate::shrink::write;
use crate::trees;

/// The programs of the port; each is left out where it is not given.
#[derive(Default)]
pub struct Port {
    pub labelcheck: Option<String>,
    pub nodes: Option<String>,
}

#[derive(Default)]
pub struct Counts {
    pub jobs: u64,
    pub bad: u64,
    pub texts: u64,
    pub queries: u64,
    pub refused: u64,
    pub yes: u64,
    pub departing: u64,
    pub port_jobs: u64,
    pub port_lines: u64,
    pub port_trees: u64,
    pub by_refusal: BTreeMap<u8, u64>,
}

const DROPPED: &str = "known: a wildcard side dropped in a union of two without None";

/// A good job with what the crate and the rules say of it.
struct Told<'a> {
    read: &'a Read,
    by_crate: Answers,
    by_rules: Vec<String>,
    counts: &'a mut Counts,
    found: Vec<String>,
}

/// The differences of one job, by class.
pub fn differences(bytes: &[u8], port: &Port, counts: &mut Counts) -> Vec<String> {
    counts.jobs += 1;
    let said = port.labelcheck.as_ref().map(|p| port::run(p, bytes));
    counts.port_jobs += u64::from(said.is_some());
    let read = match job::read(bytes) {
        Ok(read) => read,
        Err(bad) => return bad_job(bad, said, counts),
    };
    let mut told = Told {
        read: &read,
        by_crate: oracle::answers(&read, Names::Own),
        by_rules: read.answers(),
        counts,
        found: Vec::new(),
    };
    told.crate_and_rules();
    if let Some(said) = said {
        told.port_answers(&said);
    }
    if let Some(program) = &port.nodes {
        told.port_trees(&port::run(program, bytes));
    }
    told.found
}

fn bad_job(bad: Bad, said: Option<String>, counts: &mut Counts) -> Vec<String> {
    counts.bad += 1;
    *counts.by_refusal.entry(bad.1).or_default() += 1;
    match said {
        Some(said) if said != bad.line() => {
            let kind = if said.starts_with("bad ") {
                "another"
            } else {
                "none"
            };
            vec![format!(
                "UNKNOWN bad line: rules refuse by {}, port has {kind}",
                bad.1
            )]
        }
        said => {
            counts.port_lines += u64::from(said.is_some());
            vec![]
        }
    }
}

impl Told<'_> {
    fn unknown(&mut self, what: &str) {
        self.found.push(format!("UNKNOWN {what}"));
    }

    fn known(&mut self, what: &str) {
        self.found.push(format!("{DROPPED}: {what}"));
    }

    /// The query's annotation is one at which the port departs.
    fn departs(&self, query: usize) -> bool {
        let annotation = self.read.queries[query].0 as usize;
        let annotation = self.read.annotations.get(annotation);
        annotation.is_some_and(|a| a.compiled.departs)
    }

    /// The tree that the rules give to a text.
    fn tree(&self, text: usize) -> String {
        let root = self.read.annotations[text].compiled.root;
        trees::canonical(&self.read.store.show(root))
    }

    fn crate_and_rules(&mut self) {
        self.counts.texts += self.read.annotations.len() as u64;
        self.counts.queries += self.by_rules.len() as u64;
        if self.read.runs() != self.by_rules {
            self.unknown("rules: members and nodes");
        }
        let (dropped_trees, dropped_lines) = self.read.dropping();
        for (i, dropped) in dropped_trees.iter().enumerate() {
            let annotation = &self.read.annotations[i];
            self.counts.departing += u64::from(annotation.compiled.departs);
            let (union, tree) = &self.by_crate.texts[i];
            let tree = trees::canonical(tree);
            if *union != self.read.types.show(annotation.ty) {
                self.unknown("union: crate and rules");
            }
            if tree != trees::canonical(dropped) {
                self.unknown("tree: crate and rules");
            } else if tree != self.tree(i) {
                self.known("tree");
            }
        }
        for (q, dropped) in dropped_lines.iter().enumerate() {
            self.counts.yes += u64::from(self.by_rules[q].ends_with("yes\n"));
            self.counts.refused += u64::from(self.by_rules[q].contains("refused"));
            if self.by_crate.lines[q] != *dropped {
                self.unknown("answer: crate and rules");
            } else if *dropped != self.by_rules[q] {
                self.known("answer");
            }
        }
    }

    /// The port owes the crate's answers, and the rules' where it departs.
    fn port_answers(&mut self, said: &str) {
        let lines: Vec<&str> = said.split_inclusive('\n').collect();
        self.counts.port_lines += lines.len() as u64;
        if lines.len() != self.by_rules.len() {
            let how = match lines.first() {
                Some(l) if l.starts_with("bad ") => "a bad line",
                _ if said.contains('!') => "a failure",
                _ => "another count of lines",
            };
            self.unknown(&format!("port answers: {how}"));
        }
        for (q, line) in lines.iter().enumerate().take(self.by_rules.len()) {
            let theirs = &self.by_crate.lines[q];
            let right = if self.departs(q) {
                &self.by_rules[q]
            } else {
                theirs
            };
            if line != right {
                self.unknown("answer: crate and port");
            } else if line != theirs {
                self.known("answer of the port");
            }
        }
    }

    fn port_trees(&mut self, drawn: &str) {
        let lines: Vec<&str> = drawn.lines().collect();
        self.counts.port_trees += lines.len() as u64;
        if lines.len() != self.read.annotations.len() {
            self.unknown("port trees: another count of lines");
        }
        for (i, line) in lines.iter().enumerate().take(self.read.annotations.len()) {
            let right = if self.read.annotations[i].compiled.departs {
                self.tree(i)
            } else {
                trees::canonical(&self.by_crate.texts[i].1)
            };
            if trees::canonical(line.rsplit('\t').next().unwrap_or("")) != right {
                self.unknown("tree: crate and port");
            }
        }
    }
}

#[derive(Default)]
pub struct Report {
    pub counts: Counts,
    /// Of each class: how many jobs, the smallest job, its number.
    pub classes: BTreeMap<String, (u64, Vec<u8>, u64)>,
}

/// Compares jobs by their numbers.
pub fn run(numbers: Range<u64>, job: impl Fn(u64) -> Vec<u8>, port: &Port) -> Report {
    let mut report = Report::default();
    for index in numbers {
        let bytes = job(index);
        let mut found = differences(&bytes, port, &mut report.counts);
        found.sort();
        found.dedup();
        for class in found {
            let (n, smallest, at) =
                report
                    .classes
                    .entry(class)
                    .or_insert((0, bytes.clone(), index));
            *n += 1;
            if bytes.len() < smallest.len() {
                *smallest = bytes.clone();
                *at = index;
            }
        }
        if report.counts.jobs % 10_000 == 0 {
            eprintln!("{} jobs", report.counts.jobs);
        }
    }
    report
}

// Plain types that share a name

/// Unions where host types share names: texts, those where the crate keeps an
/// alternative twice, other differences, the shortest text with the crate's union.
#[derive(Default)]
pub struct Shared {
    pub texts: u64,
    pub twice: u64,
    pub unknown: u64,
    pub shortest: Option<(String, String)>,
}

pub fn shared(seed: u64, count: u64) -> Shared {
    let mut found = Shared::default();
    for index in 0..count {
        let text = generate::host_text(seed, index);
        let mut types = Types::new();
        let Ok(t) = types.text(&text) else { continue };
        let ty = oracle::ty(&text, &[], Names::Shared);
        found.texts += 1;
        let (theirs, ours) = (oracle::show(&ty), types.show(t));
        if theirs == ours {
            continue;
        }
        found.twice += 1;
        found.unknown += u64::from(oracle::show_once(&ty) != ours);
        let written = write(&text);
        if found
            .shortest
            .as_ref()
            .is_none_or(|(s, _)| written.len() < s.len())
        {
            found.shortest = Some((written, theirs));
        }
    }
    found
}
