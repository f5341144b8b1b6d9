//! The commands.

use std::collections::BTreeMap;
use std::env;
use std::fs;
use std::io::Read;
use std::io::Write;
use std::process;

use crate::compare;
use crate::compare::Port;
use crate::compare::Report;
use crate::generate;
use crate::oracle;
use crate::oracle::Names;
use crate::pairs;
use crate::rules::job;
use crate::shrink;
use crate::speed;
use crate::trees;
use crate::values::heap::Arena;

const HELP: &str = "\
differential answer [full]         a job from standard input: the crate's answer lines
                                   (full: each text's union and matcher tree before them)
differential answers FILE [full]   the same for a file of jobs, each after its length (4 bytes)
differential rules                 a job from standard input: the answer lines by the rules alone
differential generate SEED COUNT   jobs to standard output, each after its length
differential compare SEED COUNT [labelcheck=PROGRAM] [nodes=PROGRAM] [from=INDEX]
                                   the crate's text, the rules and the port, on generated jobs
differential pairs [labelcheck=PROGRAM] [nodes=PROGRAM]
                                   the same on every pair of small alternatives
differential grammar COUNT [labelcheck=PROGRAM]
                                   every text of up to so many words and marks
differential shared SEED COUNT     unions where host types share names
differential record SEED BYTES FOLDER   the recorded files
differential trees EXPECTED FILE   compares two files of lines: text, tab, matcher tree
differential speed                 nanoseconds of a check
";

fn stop(message: &str) -> ! {
    eprintln!("{message}");
    process::exit(2);
}

fn number(text: Option<&String>) -> u64 {
    match text.and_then(|t| t.parse().ok()) {
        Some(n) => n,
        None => stop(HELP),
    }
}

fn answer(bytes: &[u8], full: bool) -> String {
    let read = match job::read(bytes) {
        Ok(read) => read,
        Err(bad) => return bad.line(),
    };
    let answers = oracle::answers(&read, Names::Own);
    let mut out = String::new();
    if full {
        for (i, (union, tree)) in answers.texts.iter().enumerate() {
            out += &format!("text {i} union {union}\n");
            out += &format!("text {i} tree {}\n", trees::canonical(tree));
        }
    }
    out + &answers.lines.concat()
}

fn input() -> Vec<u8> {
    let mut bytes = Vec::new();
    if let Err(e) = std::io::stdin().read_to_end(&mut bytes) {
        stop(&e.to_string());
    }
    bytes
}

fn file(name: Option<&String>) -> Vec<u8> {
    let Some(name) = name else { stop(HELP) };
    match fs::read(name) {
        Ok(bytes) => bytes,
        Err(e) => stop(&format!("{name}: {e}")),
    }
}

fn framed(job: &[u8]) -> Vec<u8> {
    [&(job.len() as u32).to_be_bytes()[..], job].concat()
}

fn jobs(mut bytes: &[u8]) -> Vec<&[u8]> {
    let mut all = Vec::new();
    while let Some((length, rest)) = bytes.split_first_chunk::<4>() {
        let Some((job, after)) = rest.split_at_checked(u32::from_be_bytes(*length) as usize) else {
            stop("a job is cut off");
        };
        all.push(job);
        bytes = after;
    }
    all
}

fn hex(bytes: &[u8]) -> String {
    bytes.iter().map(|b| format!("{b:02x}")).collect()
}

fn print(report: &Report, port: &Port) -> bool {
    let c = &report.counts;
    println!(
        "jobs {}, of them bad {} (by refusal {:?})",
        c.jobs, c.bad, c.by_refusal
    );
    println!(
        "texts compiled {}, with a departure {}",
        c.texts, c.departing
    );
    println!(
        "queries {}, yes {}, refused {}",
        c.queries, c.yes, c.refused
    );
    match port.labelcheck {
        Some(_) => println!("port: jobs {}, lines {}", c.port_jobs, c.port_lines),
        None => println!("port: labelcheck not given"),
    }
    match port.nodes {
        Some(_) => println!("port: trees {}", c.port_trees),
        None => println!("port: nodes not given"),
    }
    let mut unknown = false;
    for (class, (n, bytes, index)) in &report.classes {
        unknown |= class.starts_with("UNKNOWN");
        let least = shrink::shrink(bytes, class, port);
        println!("difference: {class}");
        println!(
            "  jobs {n}, smallest job {index} of {} bytes, made smaller:",
            bytes.len()
        );
        println!("  {}", hex(&least));
        if let Some(program) = &port.labelcheck {
            println!("  port:  {:?}", crate::port::run(program, &least));
        }
        println!("  crate: {:?}", answer(&least, true));
        if let Ok(read) = job::read(&least) {
            println!("  rules: {:?}", read.answers().concat());
        }
    }
    println!(
        "differences that are not known: {}",
        if unknown { "SOME" } else { "none" }
    );
    unknown
}

/// What a recorded job is good for.
#[derive(Clone, Copy, PartialEq, Eq)]
enum Sort {
    Usual,
    Limit,
    Departing,
    TooLong,
}

fn sort(bytes: &[u8]) -> Sort {
    match job::read(bytes) {
        Ok(read) if read.annotations.iter().any(|a| a.compiled.departs) => Sort::Departing,
        Ok(_) if bytes.len() <= 700 => Sort::Usual,
        Err(job::Bad(_, 7 | 8 | 10, _)) if bytes.len() <= 6000 => Sort::Limit,
        Err(_) if bytes.len() <= 350 => Sort::Usual,
        _ => Sort::TooLong,
    }
}

/// The texts of a job, each compiled by itself where no custom has an entry.
fn draw(bytes: &[u8], drawn: &mut BTreeMap<String, String>) {
    let Ok(read) = job::read(bytes) else { return };
    for a in &read.annotations {
        let text = String::from_utf8_lossy(&a.bytes).trim().to_owned();
        if drawn.len() < 900 && text.len() < 120 {
            let arena = Arena::new(&[]);
            let ty = oracle::ty(&a.text, &[], Names::Own);
            let tree = oracle::tree(&oracle::compile(&ty, arena.heap()));
            drawn.insert(text, trees::canonical(&tree));
        }
    }
}

fn record(seed: u64, most: usize, folder: &str) {
    let (mut all, mut expected, mut departures) = (Vec::new(), String::new(), String::new());
    let mut drawn = BTreeMap::new();
    let (mut index, mut limits, mut left_out) = (0, 0, 0);
    while all.len() + expected.len() < most {
        let bytes = generate::job(seed, index);
        index += 1;
        match sort(&bytes) {
            Sort::TooLong => continue,
            Sort::Limit if limits + bytes.len() > most / 6 => continue,
            Sort::Limit => limits += bytes.len(),
            Sort::Usual => {}
            Sort::Departing => {
                left_out += 1;
                continue;
            }
        }
        draw(&bytes, &mut drawn);
        all.extend(framed(&bytes));
        expected += &answer(&bytes, false);
    }
    for index in 0..20_000 {
        let bytes = generate::job(seed, index);
        if bytes.len() < 400 && sort(&bytes) == Sort::Departing {
            let (theirs, ours) = (answer(&bytes, false), by_rules(&bytes));
            if theirs != ours {
                let line = |lines: &str| lines.trim_end().replace('\n', ", ");
                departures += &format!("{}\t{}\t{}\n", hex(&bytes), line(&theirs), line(&ours));
            }
        }
    }
    let lines: String = drawn.iter().map(|(a, t)| format!("{a}\t{t}\n")).collect();
    let save = |name: &str, bytes: &[u8]| {
        let path = format!("{folder}/{name}");
        if let Err(e) = fs::write(&path, bytes) {
            stop(&format!("{path}: {e}"));
        }
    };
    save("vectors.jobs", &all);
    save("vectors.expected", expected.as_bytes());
    save("trees.expected", lines.as_bytes());
    save("departures.expected", departures.as_bytes());
    let answers = expected.lines().filter(|l| !l.starts_with("bad")).count();
    println!(
        "jobs {}, left out for a departure {left_out}",
        jobs(&all).len()
    );
    println!(
        "answers {answers}, bad jobs {}",
        expected.lines().count() - answers
    );
    println!(
        "bytes {} and {}, trees {}",
        all.len(),
        expected.len(),
        drawn.len()
    );
}

fn by_rules(bytes: &[u8]) -> String {
    match job::read(bytes) {
        Ok(read) => read.answers().concat(),
        Err(bad) => bad.line(),
    }
}

fn compare_trees(expected: &[u8], given: &[u8]) -> bool {
    let lines = |bytes: &[u8]| -> Vec<(String, String)> {
        String::from_utf8_lossy(bytes)
            .lines()
            .filter_map(|l| l.split_once('\t'))
            .map(|(text, tree)| (text.to_owned(), trees::canonical(tree)))
            .collect()
    };
    let given: std::collections::HashMap<String, String> = lines(given).into_iter().collect();
    let (mut same, mut other, mut missing) = (0, 0, 0);
    for (text, tree) in lines(expected) {
        match given.get(&text) {
            Some(t) if *t == tree => same += 1,
            Some(t) => {
                other += 1;
                println!("{text}\n  crate {tree}\n  port  {t}");
            }
            None => missing += 1,
        }
    }
    println!("trees: {same} the same, {other} different, {missing} missing");
    other + missing != 0
}

pub fn main() {
    let args: Vec<String> = env::args().skip(1).collect();
    let full = args.last().is_some_and(|a| a == "full");
    let option = |name: &str| {
        let begin = format!("{name}=");
        args.iter()
            .find_map(|a| a.strip_prefix(&begin))
            .map(str::to_owned)
    };
    let port = Port {
        labelcheck: option("labelcheck"),
        nodes: option("nodes"),
    };
    match args.first().map(String::as_str) {
        Some("answer") => print!("{}", answer(&input(), full)),
        Some("answers") => {
            for (i, bytes) in jobs(&file(args.get(1))).iter().enumerate() {
                if full {
                    println!("job {i}");
                }
                print!("{}", answer(bytes, full));
            }
        }
        Some("rules") => print!("{}", by_rules(&input())),
        Some("generate") => {
            let (seed, count) = (number(args.get(1)), number(args.get(2)));
            let mut out = std::io::stdout().lock();
            for index in 0..count {
                if out.write_all(&framed(&generate::job(seed, index))).is_err() {
                    return;
                }
            }
        }
        Some("compare") => {
            let (seed, count) = (number(args.get(1)), number(args.get(2)));
            let from = option("from").map_or(0, |n| number(Some(&n)));
            let job = |index| generate::job(seed, index);
            let report = compare::run(from..from + count, job, &port);
            if print(&report, &port) {
                process::exit(1);
            }
        }
        Some("pairs") => {
            let all = pairs::jobs();
            let job = |index| all[index as usize].clone();
            let report = compare::run(0..all.len() as u64, job, &port);
            if print(&report, &port) {
                process::exit(1);
            }
        }
        Some("grammar") => {
            let most = number(args.get(1)).min(9) as u32;
            let report = compare::run(0..pairs::texts(most), pairs::text_job, &port);
            if print(&report, &port) {
                process::exit(1);
            }
        }
        Some("shared") => {
            let (seed, count) = (number(args.get(1)), number(args.get(2)));
            let found = compare::shared(seed, count);
            println!(
                "host types that share names: of {} unions {} keep an alternative twice \
                 (known), {} differ otherwise",
                found.texts, found.twice, found.unknown
            );
            if let Some((text, union)) = found.shortest {
                println!("  shortest {text}\n  crate {union}");
            }
            if found.unknown != 0 {
                process::exit(1);
            }
        }
        Some("record") => {
            let folder = args.get(3).unwrap_or_else(|| stop(HELP));
            record(number(args.get(1)), number(args.get(2)) as usize, folder);
        }
        Some("trees") => {
            if compare_trees(&file(args.get(1)), &file(args.get(2))) {
                process::exit(1);
            }
        }
        Some("speed") => speed::run(),
        _ => stop(HELP),
    }
}
