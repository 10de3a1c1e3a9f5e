//! Times the proved reader beside the plain one.
//!
//! `bench [REPETITIONS]` asks both readers about the files of [`generate::timed`]; `ASKED` says what. A
//! repetition calls one reader many times and takes the mean; the readers take turns, and the median
//! of the repetitions (101 when nothing is said) is printed, in nanoseconds per call, with the ratio
//! proved to plain.
//!
//! The tables and the room for the sheet are full. Each call fills or clears all of them. The correction
//! of a title is timed on files without reference 2 and 3.
//!
//! Then it times the correction of a title on the files of [`timed::titles`] beside reading the tree and
//! copying the file.
//!
//! Then it times the proved reader on files of growing size, with tables and room of just the size
//! that each file needs, and prints the nanoseconds per byte of the file. At last it times both on moving
//! sheets of growing size, of either edition, and prints the nanoseconds per byte of the sheet.

use generate::cases::{ALL_ITEM_WORDS, ALL_NODE_WORDS, ALL_ROOM};
use generate::sheets::growing;
use generate::titles::folders_title;
use generate::{folders_file, timed};
use std::hint::black_box;
use std::process::ExitCode;
use std::time::{Duration, Instant};
use std::{env, fs};

/// The seed of the files.
const SEED: u64 = 1;
/// The least time that one repetition takes: so short a time is seldom broken off by another program.
const LEAST: Duration = Duration::from_micros(200);

/// What is asked about each file. The verdict is asked where the file is judged to its end, or
/// nearly so; a file that fails the first check tells nothing of it.
const ASKED: [(&str, &[&str]); 20] = [
    (
        "large",
        &["tree", "find", "resolve", "account", "sheet", "sheet2"],
    ),
    ("padded", &["tree", "account", "sheet"]),
    ("common", &["tree", "sheet"]),
    ("bare", &["tree", "account", "sheet"]),
    ("late", &["tree"]),
    ("unpackers", &["tree"]),
    ("types", &["tree", "sheet"]),
    ("text", &["sheet"]),
    ("escapes", &["sheet"]),
    ("letters", &["sheet"]),
    ("accents", &["sheet"]),
    ("mixed", &["sheet"]),
    ("over", &["sheet", "sheet2"]),
    ("children", &["tree", "verdict", "sheet"]),
    ("contents", &["tree", "verdict", "account", "sheet"]),
    ("detached", &["tree"]),
    ("backward", &["tree"]),
    ("scattered", &["tree"]),
    (
        "worked",
        &[
            "tree", "find", "resolve", "verdict", "account", "sheet", "title",
        ],
    ),
    (
        "resource",
        &["tree", "find", "resolve", "account", "sheet", "title"],
    ),
];

/// A file and what is asked about it.
struct Subject {
    file: Vec<u8>,
    /// The row from which an item is looked for, and its standard field.
    find: (u64, u64),
    /// The row that is resolved.
    resolve: u64,
    /// The item row whose title is corrected.
    title: u64,
}

impl Subject {
    fn new(name: &str, file: Vec<u8>) -> Self {
        let (find, resolve) = match name {
            // The item is on the root, two levels above. The resource is two references away.
            "large" => ((255, 1), 250),
            "worked" => ((1, 3), 1),
            "resource" => ((1, 8), 1),
            _ => ((0, 0), 0),
        };
        Subject {
            file,
            find,
            resolve,
            title: 0,
        }
    }
}

/// What is lent to a reader.
struct Lent {
    nodes: Vec<u64>,
    items: Vec<u64>,
    sheet: Vec<u8>,
}

/// The new title.
const TITLE: &[u8] = b"The same tune with another title";

/// A question to one reader. It answers one number, or the number of the refusal.
type Ask = fn(&Subject, &mut Lent) -> Result<u64, u64>;

/// The questions, each to the proved and to the plain reader.
const QUESTIONS: [(&str, Ask, Ask); 8] = [
    (
        "tree",
        |about, lent| match xmf::read_tree(&about.file, &mut lent.nodes, &mut lent.items) {
            Ok(tree) => Ok(tree.items as u64),
            Err(refusal) => Err(refusal.number),
        },
        |about, lent| match plain::read_tree(&about.file, &mut lent.nodes, &mut lent.items) {
            Ok(tree) => Ok(tree.items),
            Err(refusal) => Err(refusal.number),
        },
    ),
    (
        "find",
        |about, lent| {
            let (row, number) = about.find;
            let field = xmf::Field::Standard(number);
            let (nodes, items) = (&mut lent.nodes, &mut lent.items);
            match xmf::find(&about.file, nodes, items, row as usize, field) {
                Ok(found) => Ok(found.row as u64),
                Err(refusal) => Err(refusal.number),
            }
        },
        |about, lent| {
            let (row, number) = about.find;
            let field = plain::Field::Standard(number);
            let (nodes, items) = (&mut lent.nodes, &mut lent.items);
            match plain::find(&about.file, nodes, items, row, field) {
                Ok(found) => Ok(found.row),
                Err(refusal) => Err(refusal.number),
            }
        },
    ),
    (
        "resolve",
        |about, lent| {
            let row = about.resolve as usize;
            match xmf::resolve(&about.file, &mut lent.nodes, &mut lent.items, row) {
                Ok(resource) => Ok(resource.place as u64),
                Err(refusal) => Err(refusal.number),
            }
        },
        |about, lent| {
            let row = about.resolve;
            match plain::resolve(&about.file, &mut lent.nodes, &mut lent.items, row) {
                Ok(resource) => Ok(resource.place),
                Err(refusal) => Err(refusal.number),
            }
        },
    ),
    (
        "verdict",
        |about, lent| {
            xmf::judge(&about.file, &mut lent.nodes, &mut lent.items)
                .map_err(|refusal| refusal.number)
        },
        |about, lent| {
            plain::judge(&about.file, &mut lent.nodes, &mut lent.items)
                .map_err(|refusal| refusal.number)
        },
    ),
    (
        "account",
        |about, lent| {
            let mut totals = xmf::Totals::default();
            let (nodes, items) = (&mut lent.nodes, &mut lent.items);
            match xmf::account(&about.file, nodes, items, &mut totals) {
                Ok(counts) => Ok(counts.metadata),
                Err(refusal) => Err(refusal.number),
            }
        },
        |about, lent| {
            let mut totals = plain::Totals::default();
            let (nodes, items) = (&mut lent.nodes, &mut lent.items);
            match plain::account(&about.file, nodes, items, &mut totals) {
                Ok(counts) => Ok(counts[2]),
                Err(refusal) => Err(refusal.number),
            }
        },
    ),
    (
        "sheet",
        |about, lent| {
            let (nodes, items) = (&mut lent.nodes, &mut lent.items);
            match xmf::write_sheet(&about.file, nodes, items, &mut lent.sheet) {
                Ok(size) => Ok(size as u64),
                Err(refusal) => Err(refusal.number),
            }
        },
        |about, lent| {
            let (nodes, items) = (&mut lent.nodes, &mut lent.items);
            match plain::write_sheet(&about.file, nodes, items, &mut lent.sheet) {
                Ok(size) => Ok(size as u64),
                Err(refusal) => Err(refusal.number),
            }
        },
    ),
    (
        "sheet2",
        |about, lent| {
            let (nodes, items) = (&mut lent.nodes, &mut lent.items);
            match xmf::write_sheet2(&about.file, nodes, items, &mut lent.sheet) {
                Ok(size) => Ok(size as u64),
                Err(refusal) => Err(refusal.number),
            }
        },
        |about, lent| {
            let (nodes, items) = (&mut lent.nodes, &mut lent.items);
            match plain::write_sheet2(&about.file, nodes, items, &mut lent.sheet) {
                Ok(size) => Ok(size as u64),
                Err(refusal) => Err(refusal.number),
            }
        },
    ),
    (
        "title",
        |about, lent| {
            let row = about.title as usize;
            let (nodes, items) = (&mut lent.nodes, &mut lent.items);
            match xmf::correct_title(&about.file, nodes, items, row, TITLE, &mut lent.sheet) {
                Ok(size) => Ok(size as u64),
                Err(refusal) => Err(refusal.number),
            }
        },
        |about, lent| {
            let row = about.title;
            let (nodes, items) = (&mut lent.nodes, &mut lent.items);
            match plain::correct_title(&about.file, nodes, items, row, TITLE, &mut lent.sheet) {
                Ok(size) => Ok(size as u64),
                Err(refusal) => Err(refusal.number),
            }
        },
    ),
];

fn main() -> ExitCode {
    let arguments: Vec<String> = env::args().skip(1).collect();
    let repetitions = match arguments.as_slice() {
        [] => Some(101),
        [word] => word.parse().ok().filter(|&count: &usize| count > 0),
        _ => None,
    };
    let Some(repetitions) = repetitions else {
        eprintln!("usage: bench [REPETITIONS]");
        return ExitCode::from(2);
    };
    let mut lent = Lent {
        nodes: vec![0; ALL_NODE_WORDS],
        items: vec![0; ALL_ITEM_WORDS],
        sheet: vec![0; ALL_ROOM],
    };
    if let Some(processor) = processor() {
        println!("processor: {processor}");
    }
    println!("nanoseconds per call, median of {repetitions} repetitions, seed {SEED}");
    println!(
        "{:10}{:>8}  {:10}{:>10}{:>12}{:>12}{:>8}",
        "file", "bytes", "question", "answer", "proved", "plain", "ratio"
    );
    for (name, file) in timed::all(SEED) {
        let about = Subject::new(name, file);
        let asked = ASKED.iter().find(|(known, _)| *known == name);
        let (_, asked) = asked.expect("a file that something is asked about");
        for question in QUESTIONS {
            if asked.contains(&question.0) {
                print_times(name, &about, &mut lent, question, repetitions);
            }
        }
    }
    let (file, title) = folders_title(SEED, 15);
    let about = Subject {
        title,
        ..Subject::new("folders", file)
    };
    let [.., question] = QUESTIONS;
    print_times("folders", &about, &mut lent, question, repetitions);
    titles(&mut lent, repetitions);
    growth(repetitions);
    sheets(repetitions);
    ExitCode::SUCCESS
}

/// Times a question by both readers.
fn print_times(
    name: &str,
    about: &Subject,
    lent: &mut Lent,
    (question, proved, plain): (&str, Ask, Ask),
    repetitions: usize,
) {
    let answer = plain(about, lent);
    assert_eq!(proved(about, lent), answer, "{name}: {question}");
    let [proved, plain] = times(about, lent, [proved, plain], repetitions);
    println!(
        "{:10}{:>8}  {:10}{:>10}{:>12.0}{:>12.0}{:>8.2}",
        name,
        about.file.len(),
        question,
        match answer {
            Ok(number) => number.to_string(),
            Err(number) => format!("refused {number}"),
        },
        proved,
        plain,
        proved / plain
    );
}

/// Times the correction of a title beside what it cannot do without: to read the tree, and to copy the
/// file.
fn titles(lent: &mut Lent, repetitions: usize) {
    println!("\nthe proved reader, a corrected title over reading the tree and copying the file");
    println!(
        "{:16}{:>8}{:>12}{:>12}{:>8}",
        "file", "bytes", "title", "both", "ratio"
    );
    const BOTH: Ask = |about, lent| {
        let size = about.file.len();
        let tree = xmf::read_tree(&about.file, &mut lent.nodes, &mut lent.items);
        lent.sheet[..size].copy_from_slice(black_box(&about.file));
        match tree {
            Ok(tree) => Ok(tree.items as u64),
            Err(refusal) => Err(refusal.number),
        }
    };
    let [.., (_, correct, _)] = QUESTIONS;
    for (name, file) in timed::titles() {
        let about = Subject::new(name, file);
        correct(&about, lent).expect("a title that is corrected");
        let [title, both] = times(&about, lent, [correct, BOTH], repetitions);
        println!(
            "{name:16}{:>8}{title:>12.0}{both:>12.0}{:>8.2}",
            about.file.len(),
            title / both
        );
    }
}

/// Times the proved reader on files of growing size.
fn growth(repetitions: usize) {
    println!("\nthe proved reader on files of growing size, nanoseconds per byte of the file");
    println!(
        "{:>8}{:>8}{:>8}{:>8}{:>8}",
        "nodes", "bytes", "tree", "sheet", "title"
    );
    for folders in [1, 3, 7, 15] {
        let nodes = 1 + folders * 17;
        let about = Subject::new("folders", folders_file(SEED, folders));
        let mut lent = Lent {
            nodes: vec![0; nodes * xmf::node::WORDS],
            items: vec![0; nodes * 4 * xmf::item::WORDS],
            sheet: vec![0; ALL_ROOM],
        };
        let sheet = xmf::write_sheet(
            &about.file,
            &mut lent.nodes,
            &mut lent.items,
            &mut lent.sheet,
        );
        lent.sheet.truncate(sheet.expect("a well-formed file"));
        let bytes = about.file.len();
        let [(_, tree, _), .., (_, sheet, _), _, (_, correct, _)] = QUESTIONS;
        let taken = times(&about, &mut lent, [tree, sheet], repetitions);
        let [tree, sheet] = taken.map(|time| time / bytes as f64);

        let (file, title) = folders_title(SEED, folders);
        lent.sheet.resize(file.len() + TITLE.len() + 40, 0);
        let about = Subject {
            file,
            title,
            ..about
        };
        correct(&about, &mut lent).expect("a title that is corrected");
        let [title] = times(&about, &mut lent, [correct], repetitions);
        let title = title / about.file.len() as f64;
        println!("{nodes:>8}{bytes:>8}{tree:>8.2}{sheet:>8.2}{title:>8.2}");
    }
}

/// Times moving sheets of growing size by both, with the room that each needs.
fn sheets(repetitions: usize) {
    println!("\nmoving a sheet with four items on each node, nanoseconds per byte of the sheet");
    println!(
        "{:>8}{:>8}{:>8}{:>8}{:>8}",
        "edition", "nodes", "bytes", "proved", "plain"
    );
    const MOVES: [Ask; 2] = [
        |about, lent| match xmf::move_sheet(&about.file, &mut lent.sheet) {
            Ok(size) => Ok(size as u64),
            Err(refusal) => Err(refusal.number),
        },
        |about, lent| match plain::move_sheet(&about.file, &mut lent.sheet) {
            Ok(size) => Ok(size as u64),
            Err(refusal) => Err(refusal.number),
        },
    ];
    for nodes in [64, 128, 256, 512, 1024] {
        let [first, second] = growing(SEED, nodes);
        for (edition, sheet, room) in [
            ("first", first.clone(), second.len()),
            ("second", second.clone(), first.len()),
        ] {
            let bytes = sheet.len();
            let about = Subject::new("sheet", sheet);
            let mut lent = Lent {
                nodes: Vec::new(),
                items: Vec::new(),
                sheet: vec![0; room],
            };
            let [proved, plain] = times(&about, &mut lent, MOVES, repetitions);
            assert_eq!(MOVES[0](&about, &mut lent), Ok(room as u64), "{edition}");
            let [proved, plain] = [proved, plain].map(|time| time / bytes as f64);
            println!("{edition:>8}{nodes:>8}{bytes:>8}{proved:>8.2}{plain:>8.2}");
        }
    }
}

/// The median time of a call to each, in nanoseconds. They take turns.
fn times<const COUNT: usize>(
    about: &Subject,
    lent: &mut Lent,
    asks: [Ask; COUNT],
    repetitions: usize,
) -> [f64; COUNT] {
    let most = asks.map(|ask| calls(about, lent, ask));
    let calls = most.into_iter().max().unwrap_or(1);
    let mut taken = [(); COUNT].map(|()| Vec::new());
    for _ in 0..repetitions {
        for (ask, taken) in asks.iter().zip(&mut taken) {
            taken.push(nanoseconds(about, lent, *ask, calls));
        }
    }
    taken.map(median)
}

/// The number of calls that take the least time of a repetition.
fn calls(about: &Subject, lent: &mut Lent, ask: Ask) -> u32 {
    let mut calls = 1;
    loop {
        let start = Instant::now();
        repeat(about, lent, ask, calls);
        if start.elapsed() >= LEAST {
            return calls;
        }
        calls *= 2;
    }
}

/// The mean time of a call.
fn nanoseconds(about: &Subject, lent: &mut Lent, ask: Ask, calls: u32) -> f64 {
    let start = Instant::now();
    repeat(about, lent, ask, calls);
    start.elapsed().as_nanos() as f64 / f64::from(calls)
}

fn repeat(about: &Subject, lent: &mut Lent, ask: Ask, calls: u32) {
    for _ in 0..calls {
        let _ = black_box(ask(black_box(about), black_box(&mut *lent)));
    }
}

fn median(mut times: Vec<f64>) -> f64 {
    times.sort_by(f64::total_cmp);
    times[times.len() / 2]
}

/// The name of the processor, where the system tells it.
fn processor() -> Option<String> {
    let text = fs::read_to_string("/proc/cpuinfo").ok()?;
    let line = text.lines().find(|line| line.starts_with("model name"))?;
    let (_, name) = line.split_once(':')?;
    Some(name.trim().to_string())
}
