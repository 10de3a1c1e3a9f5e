//! Runs every case of a vectors file and reports the lines whose answer differs.
//!
//! The path of the vectors file is the first argument. The lent tables and buffers hold other values
//! before each call, and what they hold afterwards is checked as well.

use plain::{account, frame, frame_count, Totals};
use plain::{
    correct_title, find, find_own, judge, mend, read_tree, resolve, resource, voice_count,
};
use plain::{move_sheet, write_sheet, write_sheet2};
use plain::{utf16_to_utf8, utf8_to_utf16};
use plain::{Field, Refusal};
use std::process::ExitCode;

/// What the lent words hold before a call.
const STALE: u64 = 0xDEAD_BEEF_0BAD_CAFE;

fn main() -> ExitCode {
    let Some(path) = std::env::args().nth(1) else {
        eprintln!("usage: vectors FILE");
        return ExitCode::from(2);
    };
    let text = match std::fs::read_to_string(&path) {
        Ok(text) => text,
        Err(error) => {
            eprintln!("{path}: {error}");
            return ExitCode::from(2);
        }
    };

    let mut cases = 0;
    let mut differences = 0;
    for (line, number) in text.lines().zip(1..) {
        if line.trim().is_empty() {
            continue;
        }
        cases += 1;
        let expected = line.split_once(" => ").map_or("", |(_, answer)| answer);
        let answer = run(line).unwrap_or_else(|| "not a case".to_string());
        if answer.trim_end() != expected.trim_end() {
            differences += 1;
            println!("line {number}: {line}");
            println!("  answered: {answer}");
        }
    }
    println!("{cases} cases, {differences} differences");
    if differences == 0 {
        ExitCode::SUCCESS
    } else {
        ExitCode::FAILURE
    }
}

/// Runs one case and gives its answer in the form of the vectors file, or nothing when the line
/// isn't a case.
fn run(line: &str) -> Option<String> {
    let (case, _) = line.split_once(" => ")?;
    let mut words = case.split_whitespace();
    let command = words.next()?;
    if command == "bytessum" {
        return sum(words);
    }
    let mut file = bytes(words.next()?)?;
    if command.starts_with("utf") || command == "move" {
        let room = words.next()?.parse().ok()?;
        return match words.next() {
            None => convert(command, &file, room),
            Some(_) => None,
        };
    }
    if command.starts_with("id3") {
        return walk(command, &file, words.next());
    }
    let mut nodes = vec![STALE; words.next()?.parse().ok()?];
    let mut items = vec![STALE; words.next()?.parse().ok()?];

    let answer = match command {
        "tree" => read_tree(&file, &mut nodes, &mut items).map(|tree| {
            format!(
                "ok {}.{:02} {} {} n:{} i:{}",
                tree.version / 100,
                tree.version % 100,
                tree.nodes,
                tree.items,
                rows(&nodes, plain::node::WORDS, tree.nodes),
                rows(&items, plain::item::WORDS, tree.items),
            )
        }),
        "find" | "findown" => {
            let row = words.next()?.parse().ok()?;
            let kind = words.next()?;
            let field = words.next()?;
            let name;
            let field = match kind {
                "S" => Field::Standard(field.parse().ok()?),
                "C" => {
                    name = bytes(field)?;
                    Field::Custom(&name)
                }
                _ => return None,
            };
            let asked = if command == "find" { find } else { find_own };
            asked(&file, &mut nodes, &mut items, row, field)
                .map(|found| format!("ok {} {}", found.row, joined(&found.words)))
        }
        "resolve" => {
            let row = words.next()?.parse().ok()?;
            let part = resource(&file, &mut nodes, &mut items, row);
            nodes.fill(STALE);
            items.fill(STALE);
            let found = resolve(&file, &mut nodes, &mut items, row);
            let expected = found.map_or(&[][..], |found| {
                &file[found.place as usize..][..found.length as usize]
            });
            if part != expected {
                return Some("the part given isn't the resource".to_string());
            }
            found.map(|found| {
                format!(
                    "ok {} {} {} {}",
                    found.place, found.length, found.row, found.hops
                )
            })
        }
        "count" => {
            let item_row = words.next()?.parse().ok()?;
            let channel = words.next()?.parse().ok()?;
            let resource = words.next()?.parse().ok()?;
            voice_count(&file, &mut nodes, &mut items, item_row, channel, resource)
                .map(|count| format!("ok {count}"))
        }
        "verdict" => judge(&file, &mut nodes, &mut items).map(|verdict| format!("ok {verdict}")),
        "bytes" => account(&file, &mut nodes, &mut items, &mut Totals::default())
            .map(|counts| format!("ok {}", joined(&counts).replace(',', " "))),
        "sheet" | "sheet2" => {
            let write = match command {
                "sheet" => write_sheet,
                _ => write_sheet2,
            };
            let mut sheet = vec![0xEE; words.next()?.parse().ok()?];
            let written = write(&file, &mut nodes, &mut items, &mut sheet);
            if sheet[written.unwrap_or(0)..].iter().any(|&byte| byte != 0) {
                return Some("the buffer isn't cleared".to_string());
            }
            written.map(|length| format!("ok {}", hex(&sheet[..length])))
        }
        "title" => {
            let row = words.next()?.parse().ok()?;
            let title = bytes(words.next()?)?;
            let mut out = vec![0xEE; words.next()?.parse().ok()?];
            let written = correct_title(&file, &mut nodes, &mut items, row, &title, &mut out);
            if out[written.unwrap_or(0)..].iter().any(|&byte| byte != 0) {
                return Some("the room isn't cleared".to_string());
            }
            written.map(|length| {
                // the tables hold the new file's rows
                file = out[..length].to_vec();
                format!("ok {}", hex(&file))
            })
        }
        "mend" => {
            let mut copy = vec![0xEE; words.next()?.parse().ok()?];
            let mut lines = vec![0xEE; words.next()?.parse().ok()?];
            let written = mend(&file, &mut nodes, &mut items, &mut copy, &mut lines);
            let [length, told] = written.unwrap_or_default();
            if copy[length..]
                .iter()
                .chain(&lines[told..])
                .any(|&byte| byte != 0)
            {
                return Some("a room isn't cleared".to_string());
            }
            written.map(|_| {
                // the tables hold the mended file's rows
                file = copy[..length].to_vec();
                format!("ok {} {}", hex(&file), hex(&lines[..told]))
            })
        }
        _ => return None,
    };
    if words.next().is_some() {
        return None;
    }

    Some(match answer {
        Ok(answer) => match tables_agree(&file, &nodes, &items) {
            true => answer,
            false => "the tables don't hold the file's rows".to_string(),
        },
        Err(Refusal { number, place }) => match nodes.iter().chain(&items).all(|&word| word == 0) {
            true => format!("R {number} {place}"),
            false => "the tables aren't cleared".to_string(),
        },
    })
}

/// Runs one case of sums over files: the words lent, the totals, and the files.
fn sum<'a>(mut words: impl Iterator<Item = &'a str>) -> Option<String> {
    let node_words = words.next()?.parse().ok()?;
    let item_words = words.next()?.parse().ok()?;
    let mut totals = Totals::default();
    let given = words.next()?;
    if given != "-" {
        let given: Option<Vec<u64>> = given.split(',').map(|word| word.parse().ok()).collect();
        let [files, refused, kinds @ ..]: [u64; 11] = given?.try_into().ok()?;
        totals = Totals {
            files,
            refused,
            kinds,
        };
    }
    let mut answer = "ok".to_string();
    for file in words {
        let mut nodes = vec![STALE; node_words];
        let mut items = vec![STALE; item_words];
        let counts = account(&bytes(file)?, &mut nodes, &mut items, &mut totals);
        answer += &match counts {
            Ok(counts) => format!(" ok:{}", joined(&counts)),
            Err(Refusal { number, place }) => format!(" R:{number}:{place}"),
        };
    }
    let left = joined(&totals.kinds).replace(',', " ");
    Some(format!(
        "{answer} T {} {} {left}",
        totals.files, totals.refused
    ))
}

/// Runs one case of a conversion, or of the mover.
fn convert(command: &str, given: &[u8], room: usize) -> Option<String> {
    let mut text = vec![0xEE; room];
    let written = match command {
        "utf8" => utf16_to_utf8(given, &mut text),
        "utf16" => utf8_to_utf16(given, &mut text),
        "move" => move_sheet(given, &mut text),
        _ => return None,
    };
    if text[written.unwrap_or(0)..].iter().any(|&byte| byte != 0) {
        return Some("the room isn't cleared".to_string());
    }
    Some(match written {
        Ok(length) => format!("ok {}", hex(&text[..length])),
        Err(Refusal { number, place }) => format!("R {number} {place}"),
    })
}

/// Runs one case of the walk of a tag.
fn walk(command: &str, tag: &[u8], number: Option<&str>) -> Option<String> {
    let answer = match (command, number) {
        ("id3", None) => frame_count(tag).map(|count| format!("ok {count}")),
        ("id3frame", Some(number)) => frame(tag, number.parse().ok()?)
            .map(|frame| format!("ok {} {} {}", hex(&frame.name), frame.place, frame.length)),
        _ => return None,
    };
    Some(answer.unwrap_or_else(|Refusal { number, place }| format!("R {number} {place}")))
}

/// Whether the tables hold what reading the tree into cleared tables gives.
fn tables_agree(file: &[u8], nodes: &[u64], items: &[u64]) -> bool {
    let mut fresh_nodes = vec![0; nodes.len()];
    let mut fresh_items = vec![0; items.len()];
    read_tree(file, &mut fresh_nodes, &mut fresh_items).is_ok()
        && fresh_nodes == nodes
        && fresh_items == items
}

/// The first rows of a table: words parted by commas, rows by semicolons.
fn rows(table: &[u64], width: usize, count: u64) -> String {
    let rows: Vec<String> = table
        .chunks(width)
        .take(count as usize)
        .map(joined)
        .collect();
    rows.join(";")
}

/// Words parted by commas.
fn joined(words: &[u64]) -> String {
    let words: Vec<String> = words.iter().map(u64::to_string).collect();
    words.join(",")
}

/// The bytes that pairs of hexadecimal digits stand for; `-` stands for no bytes.
fn bytes(text: &str) -> Option<Vec<u8>> {
    if text == "-" {
        return Some(Vec::new());
    }
    if !text.len().is_multiple_of(2) {
        return None;
    }
    (0..text.len())
        .step_by(2)
        .map(|at| u8::from_str_radix(text.get(at..at + 2)?, 16).ok())
        .collect()
}

/// The pairs of hexadecimal digits that stand for bytes; `-` stands for no bytes.
fn hex(bytes: &[u8]) -> String {
    if bytes.is_empty() {
        return "-".to_string();
    }
    bytes.iter().map(|byte| format!("{byte:02x}")).collect()
}
