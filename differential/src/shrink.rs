//! Smaller inputs: a job is made smaller while it shows the same difference.

use crate::compare::differences;
use crate::compare::Counts;
use crate::compare::Port;
use crate::generate;
use crate::generate::Records;
use crate::rules::job;
use crate::rules::text;
use crate::rules::text::Args;
use crate::rules::text::Text;
use crate::typing::custom::Entry;
use crate::values::heap::CellText;

fn records(bytes: &[u8]) -> Option<Records> {
    let mut r = Records::default();
    for (tag, body) in job::frames(bytes).ok()? {
        let two = |at: usize| u16::from_be_bytes([body[at], body[at + 1]]);
        let eight = |at: usize| i64::from_be_bytes(body[at..at + 8].try_into().expect("eight"));
        match tag {
            1 => r.cells.push(CellText {
                number: two(0),
                flags: body[2],
                mark: eight(3),
                parts: (11..body.len()).step_by(2).map(two).collect(),
            }),
            2 => r.customs.push(Entry::Mark {
                number: two(0),
                mark: eight(2),
            }),
            3 => r.customs.push(Entry::Range {
                low: eight(0),
                high: eight(8),
            }),
            4 => r.texts.push(body.to_vec()),
            _ => r.queries.push((two(0), two(2))),
        }
    }
    Some(r)
}

fn omit<T>(items: &mut Vec<T>, at: usize) {
    items.remove(at);
}

fn without_cell(r: &mut Records, gone: u16) {
    r.cells.remove(gone as usize);
    for c in &mut r.cells {
        let step = if c.number == 6 { 2 } else { 1 };
        let kept = c.parts.chunks(step).filter(|p| !p.contains(&gone));
        c.parts = kept.flatten().map(|p| p - u16::from(*p > gone)).collect();
    }
    r.queries.retain(|q| q.1 != gone);
    r.queries
        .iter_mut()
        .for_each(|q| q.1 -= u16::from(q.1 > gone));
}

fn without_text(r: &mut Records, gone: u16) {
    r.texts.remove(gone as usize);
    r.queries.retain(|q| q.0 != gone);
    r.queries
        .iter_mut()
        .for_each(|q| q.0 -= u16::from(q.0 > gone));
}

fn only_text(r: &mut Records, kept: usize) {
    r.texts = vec![r.texts[kept].clone()];
    r.queries.retain(|q| q.0 as usize == kept);
    r.queries.iter_mut().for_each(|q| q.0 = 0);
}

/// A text without spaces.
pub fn write(text: &Text) -> String {
    let each = text.0.iter().map(|a| {
        let name = generate::word(a.name);
        match &a.args {
            Args::Bare => name,
            Args::Many(t) => format!("{name}[{},...]", write(t)),
            Args::Texts(ts) => {
                format!(
                    "{name}[{}]",
                    ts.iter().map(write).collect::<Vec<_>>().join(",")
                )
            }
        }
    });
    each.collect::<Vec<_>>().join("|")
}

/// Texts that are one step smaller.
fn smaller_texts(text: &Text) -> Vec<Text> {
    let mut all = Vec::new();
    for (i, a) in text.0.iter().enumerate() {
        if text.0.len() > 1 {
            let mut fewer = text.clone();
            fewer.0.remove(i);
            all.push(fewer);
        }
        let args: Vec<&Text> = match &a.args {
            Args::Bare => continue,
            Args::Many(t) => vec![&**t],
            Args::Texts(ts) => ts.iter().collect(),
        };
        all.extend(args.iter().map(|t| (*t).clone()));
        for (j, t) in args.iter().enumerate() {
            for smaller in smaller_texts(t) {
                let mut changed = text.clone();
                match &mut changed.0[i].args {
                    Args::Many(t) => **t = smaller,
                    Args::Texts(ts) => ts[j] = smaller,
                    Args::Bare => {}
                }
                all.push(changed);
            }
        }
        let mut bare = text.clone();
        bare.0[i].args = Args::Bare;
        all.push(bare);
    }
    all
}

fn smaller(bytes: &[u8]) -> Vec<Vec<u8>> {
    let mut all = Vec::new();
    let Some(r) = records(bytes) else {
        for long in [bytes.len() / 2, bytes.len() / 4, 16, 4, 1] {
            for at in (0..bytes.len()).step_by(long.max(1)) {
                let end = (at + long).min(bytes.len());
                all.push([&bytes[..at], &bytes[end..]].concat());
            }
        }
        return all;
    };
    let again = || records(bytes).expect("the same records");
    let mut push = |change: &dyn Fn(&mut Records)| {
        let mut r = again();
        change(&mut r);
        all.push(r.bytes());
    };
    if r.texts.len() > 1 {
        for t in 0..r.texts.len() {
            push(&|r| only_text(r, t));
        }
    }
    if r.queries.len() > 1 {
        for q in 0..r.queries.len() {
            push(&|r| r.queries = vec![r.queries[q]]);
        }
    }
    for q in 0..r.queries.len() {
        push(&|r| omit(&mut r.queries, q));
    }
    for t in 0..r.texts.len() {
        push(&|r| without_text(r, t as u16));
    }
    for c in 0..r.cells.len() {
        push(&|r| without_cell(r, c as u16));
    }
    for c in 0..r.customs.len() {
        push(&|r| omit(&mut r.customs, c));
    }
    for (t, text) in r.texts.iter().enumerate() {
        match text::read(text) {
            Ok(tree) => {
                push(&|r| r.texts[t] = write(&tree).into_bytes());
                for less in smaller_texts(&tree) {
                    push(&|r| r.texts[t] = write(&less).into_bytes());
                }
            }
            Err(_) => {
                for i in 0..text.len() {
                    push(&|r| omit(&mut r.texts[t], i));
                }
            }
        }
    }
    for (c, cell) in r.cells.iter().enumerate() {
        for p in 0..cell.parts.len() {
            push(&|r| omit(&mut r.cells[c].parts, p));
        }
    }
    all
}

/// Makes a job smaller while it still shows the class of difference.
pub fn shrink(bytes: &[u8], class: &str, port: &Port) -> Vec<u8> {
    let mut best = bytes.to_vec();
    let mut tries = 0;
    loop {
        let mut better = None;
        for less in smaller(&best) {
            if less.len() >= best.len() {
                continue;
            }
            tries += 1;
            if tries > 3000 {
                return best;
            }
            let found = differences(&less, port, &mut Counts::default());
            if found.iter().any(|f| f == class) {
                better = Some(less);
                break;
            }
        }
        match better {
            Some(less) => best = less,
            None => return best,
        }
    }
}
