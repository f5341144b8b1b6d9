//! How long a check takes by the crate's matchers and, if its library is linked
//! (feature `port`), by the port. Each shape is a job, the same for both.

use std::hint::black_box;
use std::time::Duration;
use std::time::Instant;

use crate::generate::Records;
use crate::oracle;
use crate::oracle::Names;
use crate::rules::job;
use crate::values::heap::Arena;
use crate::values::heap::CellText;

/// One measurement lasts at least this long; the best of five counts.
const LEAST: Duration = Duration::from_millis(60);
const ROUNDS: usize = 5;

#[cfg(feature = "port")]
extern "C" {
    /// Reads the job, compiles its texts and asks `times` times whether the value
    /// is in the annotation. Answers how often it was.
    fn label_checks(
        job: *const u8,
        length: usize,
        annotation: usize,
        value: usize,
        times: usize,
    ) -> usize;
}

#[cfg(feature = "port")]
fn port(job: &[u8], value: usize, times: usize) -> Option<usize> {
    // The library only reads the bytes given.
    Some(unsafe { label_checks(job.as_ptr(), job.len(), 0, value, times) })
}

#[cfg(not(feature = "port"))]
fn port(_job: &[u8], _value: usize, _times: usize) -> Option<usize> {
    None
}

/// A job with one text, and the value to ask about.
struct Shape {
    name: String,
    job: Vec<u8>,
    value: usize,
}

fn cell(number: u16, parts: Vec<u16>) -> CellText {
    let flags = if number >= 5 { 2 } else { 0 };
    CellText {
        number,
        flags,
        mark: 0,
        parts,
    }
}

/// The last cell is the value.
fn shape(name: String, text: &str, cells: Vec<CellText>) -> Shape {
    let value = cells.len() - 1;
    let records = Records {
        cells,
        texts: vec![text.as_bytes().to_vec()],
        ..Records::default()
    };
    Shape {
        name,
        job: records.bytes(),
        value,
    }
}

fn numbers(n: usize) -> Vec<u16> {
    (0..n as u16).collect()
}

fn ints(n: usize) -> Shape {
    let mut cells: Vec<CellText> = (0..n).map(|_| cell(1, vec![])).collect();
    cells.push(cell(5, numbers(n)));
    shape(format!("list[int], {n} parts"), "list[int]", cells)
}

fn strings(n: usize) -> Shape {
    let mut cells: Vec<CellText> = (0..2 * n).map(|_| cell(4, vec![])).collect();
    cells.push(cell(6, numbers(2 * n)));
    shape(
        format!("dict[str, str], {n} pairs"),
        "dict[str, str]",
        cells,
    )
}

/// Ints, strs, lists and dicts by turns under a union of four.
fn unions(n: usize) -> Shape {
    let text = "list[int | str | list[int | None] | dict[str, int | str | None]]";
    let mut cells = vec![
        cell(1, vec![]),
        cell(4, vec![]),
        cell(3, vec![]),
        cell(5, vec![0, 2, 0]),
        cell(6, vec![1, 0, 1, 2]),
    ];
    let parts = (0..n).map(|i| [0, 1, 3, 4][i % 4]).collect();
    cells.push(cell(5, parts));
    shape(format!("nested unions, {n} parts"), text, cells)
}

/// A list in a list, `depth` times, around an int.
fn nested(depth: usize) -> Shape {
    let mut cells = vec![cell(1, vec![])];
    for d in 0..depth {
        cells.push(cell(5, vec![d as u16]));
    }
    let text = format!("{}int{}", "list[".repeat(depth), "]".repeat(depth));
    shape(format!("list[..], {depth} deep"), &text, cells)
}

/// Ten ints at the end of a heap of many cells.
fn far(n: usize) -> Shape {
    let mut cells: Vec<CellText> = (0..n).map(|_| cell(1, vec![])).collect();
    cells.push(cell(5, (n as u16 - 10..n as u16).collect()));
    shape(
        format!("list[int], 10 parts, {n} cells"),
        "list[int]",
        cells,
    )
}

fn shapes() -> Vec<Shape> {
    let mut all = Vec::new();
    all.extend([1, 10, 100, 1000].map(ints));
    all.extend([1, 10, 100, 1000].map(strings));
    all.extend([4, 40, 400, 4000].map(unions));
    all.extend([1, 4, 16, 31].map(nested));
    all.extend([10, 100, 1000, 4000].map(far));
    all
}

/// Nanoseconds of one check; `checks` makes so many.
fn measured(checks: &dyn Fn(usize)) -> f64 {
    let timed = |times| {
        let start = Instant::now();
        checks(times);
        start.elapsed()
    };
    let mut times = 1;
    while timed(times) < LEAST {
        times *= 2;
    }
    // What comes before the checks is measured by itself and taken off.
    let before = (0..ROUNDS).map(|_| timed(0)).min().unwrap_or_default();
    let best = (0..ROUNDS).map(|_| timed(times)).min().unwrap_or_default();
    best.saturating_sub(before).as_nanos() as f64 / times as f64
}

fn of_crate(shape: &Shape) -> f64 {
    let Ok(read) = job::read(&shape.job) else {
        unreachable!("a shape is a good job")
    };
    let arena = Arena::new(&read.cells);
    let ty = oracle::ty(&read.annotations[0].text, &read.customs, Names::Own);
    let compiled = oracle::compile(&ty, arena.heap());
    let value = arena.value(shape.value).expect("a cell");
    assert!(compiled.matches(value), "{}", shape.name);
    measured(&|times| {
        for _ in 0..times {
            black_box(black_box(&compiled).matches(black_box(value)));
        }
    })
}

fn of_port(shape: &Shape) -> Option<f64> {
    let yes = port(&shape.job, shape.value, 3)?;
    assert_eq!(yes, 3, "{}", shape.name);
    Some(measured(&|times| {
        black_box(port(&shape.job, shape.value, times));
    }))
}

pub fn run() {
    println!("nanoseconds of a check; ratio: the crate's time by the port's");
    for shape in shapes() {
        let theirs = of_crate(&shape);
        match of_port(&shape) {
            Some(ours) => {
                let ratio = theirs / ours;
                println!(
                    "{:40} crate {theirs:10.1} port {ours:10.1} ratio {ratio:.2}",
                    shape.name
                );
            }
            None => println!("{:40} crate {theirs:10.1}", shape.name),
        }
    }
}
