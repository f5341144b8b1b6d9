//! Small inputs without a gap: every alternative of a small stock, by itself and
//! beside every other, asked of one heap with a value for each case; and every text
//! of a few words and marks, good or not.

use crate::generate::Records;
use crate::typing::custom::Entry;
use crate::values::heap::CellText;

const LEAVES: [&str; 11] = [
    "int",
    "bool",
    "str",
    "None",
    "host.16",
    "typing.Any",
    "typing.Never",
    "custom.0",
    "custom.1",
    "custom.2",
    "list",
];
const OTHERS: [&str; 9] = [
    "type",
    "typing.Callable",
    "typing.Iterable",
    "set",
    "dict",
    "tuple",
    "tuple[]",
    "host.5",
    "custom.3",
];
/// Texts in one job; more would fill its tables.
const TOGETHER: usize = 90;

fn stock() -> Vec<String> {
    let mut all: Vec<String> = LEAVES
        .iter()
        .chain(&OTHERS)
        .map(|s| s.to_string())
        .collect();
    for a in LEAVES {
        for of in [
            "list[_]",
            "set[_]",
            "tuple[_]",
            "tuple[_,...]",
            "typing.Iterable[_]",
        ] {
            all.push(of.replace('_', a));
        }
        for b in LEAVES {
            all.push(format!("dict[{a},{b}]"));
            all.push(format!("tuple[{a},{b}]"));
        }
    }
    all
}

fn cells() -> Vec<CellText> {
    let cell = |number, flags, mark, parts: &[u16]| CellText {
        number,
        flags,
        mark,
        parts: parts.to_vec(),
    };
    let mut all = vec![
        cell(1, 0, 3, &[]),
        cell(1, 8, 0, &[]),
        cell(2, 0, 1, &[]),
        cell(3, 0, 0, &[]),
        cell(4, 0, 0, &[]),
        cell(16, 1, 5, &[]),
        cell(16, 2, 4, &[]),
        cell(17, 4, 5, &[]),
    ];
    for number in [5, 7, 8] {
        for parts in [&[][..], &[0], &[4], &[3], &[5], &[0, 4], &[6, 1]] {
            all.push(cell(number, 2, 0, parts));
        }
    }
    for parts in [&[][..], &[4, 0], &[0, 4], &[3, 2], &[5, 5, 0, 0]] {
        all.push(cell(6, 2, 0, parts));
    }
    all
}

fn job(texts: &[String]) -> Vec<u8> {
    let cells = cells();
    let values = cells.len();
    let mut records = Records {
        cells,
        customs: vec![
            Entry::Mark { number: 0, mark: 7 },
            Entry::Mark {
                number: 16,
                mark: 5,
            },
            Entry::Range { low: 0, high: 9 },
        ],
        ..Records::default()
    };
    for (a, text) in texts.iter().enumerate() {
        records.texts.push(text.clone().into_bytes());
        records
            .queries
            .extend((0..values).map(|v| (a as u16, v as u16)));
    }
    records.bytes()
}

/// All the jobs: each alternative, then each ordered pair of two in a union.
pub fn jobs() -> Vec<Vec<u8>> {
    let stock = stock();
    let mut texts = stock.clone();
    for a in &stock {
        texts.extend(stock.iter().map(|b| format!("{a}|{b}")));
    }
    texts.chunks(TOGETHER).map(job).collect()
}

const WORDS: [&str; 10] = [
    "int", "list", "tuple", "dict", "x", "...", "[", "]", ",", "|",
];

/// How many texts of up to so many words and marks there are.
pub fn texts(most: u32) -> u64 {
    (0..=most).map(|n| 10u64.pow(n)).sum()
}

/// A job of the text of this number: shorter ones first.
pub fn text_job(number: u64) -> Vec<u8> {
    let (mut rest, mut length) = (number, 0);
    while rest >= 10u64.pow(length) {
        rest -= 10u64.pow(length);
        length += 1;
    }
    let words = (0..length).map(|i| WORDS[(rest / 10u64.pow(i) % 10) as usize]);
    let text = words.collect::<Vec<_>>().join(" ");
    let records = Records {
        texts: vec![text.into_bytes()],
        ..Records::default()
    };
    records.bytes()
}
