//! Compares the proved reader with the plain one on generated cases.
//!
//! `differ [--quick] [CASES [SEED [FIRST [PAIRS]]]]` takes the cases from number FIRST on (a million from number
//! 0, with seed 1, when nothing is said). For each it asks both readers all questions, with the
//! same contents of tables and buffers before, and compares the answers, each word of both tables
//! and each byte of the sheet and of a copied resource. Each case also asks one question through the interface of words, with
//! an answer buffer of 0 to 16 words.
//!
//! Beside each case it converts a generated text, in UTF-16 or UTF-8, good or with a fault, by both
//! readers, and compares the answers and each byte of the room lent. And it asks both for the count of
//! a generated content description, good or with a fault, whose answer is mostly known.
//!
//! It counts the bytes of each case's file by kind with both readers, and compares the counts and the
//! totals, which run on over more than a thousand files, and the counts' sum with the file's length.
//!
//! It moves a generated sheet, of either edition, good or with a fault (lines lost, doubled, swapped,
//! bytes changed and so on), to the other edition by both. What a sheet moves to must move back to the
//! same bytes; the other edition of a good one is known. And of each file that is read both editions of
//! the sheet are written, and each must move to the other.
//!
//! It walks a generated ID3 tag, good or with a fault, by both.
//!
//! It makes a long run of calls of two or three desks on a shelf by both, and compares every answer, word
//! and byte after each call. What was put and not dropped must be got back, and a desk must be answered
//! the same when some of the others' calls are left out, if it meets 28 at the same calls.
//!
//! It also corrects the title of a generated file by both readers and compares the answers, both tables
//! and each byte of the room. Where the right result is known, it must be that one. The result is read
//! back: its rows must be those in the tables, and it must say what the file says but for that data. The
//! same title is written into it once more, which must change nothing.
//!
//! It mends the header of a generated file, whose FileLength and TreeEnd are overwritten, by both readers
//! and compares the answers, both tables and each byte of both buffers. The copy must be what the file
//! was before, if that is read, and must differ from the file at the two fields only; mending it again
//! must change nothing and give no line.
//!
//! Then it takes PAIRS pairs of files, from number FIRST on (a tenth of the number of cases when
//! nothing is said). The files of a pair differ at private places only: in hidden data, in inline
//! data of file nodes, and outside header, tree and detached nodes. It asks the proved reader all
//! questions about both, with different contents of tables and buffers before, and compares in
//! the same way. A resource must be the part of its file that the answer names, and this place and
//! length are the same for both files. It counts their bytes by kind. It corrects a title of both, with equal answers and tables; the
//! results may differ at private places of the first only. And it mends the headers of both, overwritten in
//! the same way: the answers, the lines and the tables are equal, and the copies differ exactly where the
//! files do.
//!
//! Before all that it compares the readers on the samples and their padded copies: each of them, each
//! of its cuts, each file that differs from it in one byte, and two very long files. Then on some
//! content descriptions, each cut at every byte and changed at every byte to every other value.
//!
//! Every ten seconds it says on standard error how far it is.
//!
//! It stops at the first difference, with exit status 1. Before it prints the file, it makes it as short as
//! it can in some seconds, as long as the readers differ.
//!
//! `--quick` is for a look that takes less than a minute: 3,000 cases when nothing is said, one in 16 of the
//! changed samples, and no very long files.

mod buffers;
mod changed;
mod compare;
mod mends;
mod readers;
mod shelves;
mod titles;

// What is said meanwhile, and what is printed of a difference.
mod progress;
mod shrink;

use compare::{Comparer, Difference};
use generate::descriptions::{self, Described};
use generate::mends::{mend, Mend};
use generate::model::Field;
use generate::sheets::{sheet, Sheet};
use generate::shelves::{run as shelf_run, Run};
use generate::tags::{self, Tag};
use generate::texts::{self, Text};
use generate::titles::{title, Title};
use generate::{Case, Lent, Pair};
use std::process::ExitCode;
use std::time::Instant;
use std::{env, fmt::Write};

/// The number of cases for each pair, when nothing is said.
const CASES_FOR_A_PAIR: u64 = 10;
/// The number of content descriptions that are changed at every byte.
const CHANGED_DESCRIPTIONS: u64 = 24;
/// The cases, when nothing is said; and those of a quick run, with the changed descriptions and the changed
/// samples, of which it takes one in this many.
const CASES: u64 = 1_000_000;
const QUICK_CASES: u64 = 3_000;
const QUICK_DESCRIPTIONS: u64 = 4;
const QUICK_SAMPLES: u64 = 16;
/// The most bytes of a file that a report shows.
const MOST_SHOWN: usize = 70_000;

fn main() -> ExitCode {
    let mut words: Vec<String> = env::args().skip(1).collect();
    let is_quick = words.iter().any(|word| word == "--quick");
    words.retain(|word| word != "--quick");
    let arguments: Result<Vec<u64>, _> = words.iter().map(|word| word.parse()).collect();
    let arguments = match arguments {
        Ok(arguments) if arguments.len() <= 4 => arguments,
        _ => {
            eprintln!("usage: differ [--quick] [CASES [SEED [FIRST [PAIRS]]]]");
            return ExitCode::from(2);
        }
    };
    let argument = |index: usize, unsaid| arguments.get(index).copied().unwrap_or(unsaid);
    let cases = argument(0, if is_quick { QUICK_CASES } else { CASES });
    let seed = argument(1, 1);
    let first = argument(2, 0);
    let pairs = argument(3, cases / CASES_FOR_A_PAIR);
    let mut comparer = Comparer::new(seed);
    progress::begin();
    let compared = compare_samples(&mut comparer, seed, is_quick)
        .and_then(|()| compare_descriptions(&mut comparer, seed, is_quick))
        .and_then(|()| compare_cases(&mut comparer, cases, seed, first))
        .and_then(|()| compare_pairs(&mut comparer, pairs, seed, first));
    match compared {
        Ok(()) => {
            print_counts(&comparer);
            println!("differences: 0");
            ExitCode::SUCCESS
        }
        Err(report) => {
            print!("{report}");
            ExitCode::FAILURE
        }
    }
}

/// Compares on all changed samples, and prints how many there are, or reports a difference.
fn compare_samples(comparer: &mut Comparer, seed: u64, is_quick: bool) -> Result<(), String> {
    progress::stage("changed samples", 0);
    let (mut count, mut compared) = (0, 0);
    changed::for_each(|case| {
        let number = count;
        count += 1;
        progress::step();
        if is_quick
            && (number % QUICK_SAMPLES != 0 || case.file.len() >= generate::encode::LARGEST_NUMBER)
        {
            return Ok(());
        }
        compared += 1;
        comparer
            .case(case, number)
            .and_then(|()| comparer.account(case, number))
            .map_err(|difference| {
                let (case, difference) = shrink::case(seed, number, case, difference);
                case_report(&format!("changed sample {number}"), &case, &difference)
            })
    })?;
    println!("changed samples: {compared}");
    Ok(())
}

/// Compares on all changes of some content descriptions, and prints how many there are, or reports a
/// difference.
fn compare_descriptions(comparer: &mut Comparer, seed: u64, is_quick: bool) -> Result<(), String> {
    progress::stage("changed descriptions", 0);
    let descriptions = if is_quick {
        QUICK_DESCRIPTIONS
    } else {
        CHANGED_DESCRIPTIONS
    };
    let mut count = 0;
    for number in 0..descriptions {
        for case in descriptions::every_change(seed, number) {
            progress::step();
            comparer.description(&case, count).map_err(|difference| {
                let (case, difference) = shrink::description(seed, count, &case, difference);
                let name = format!("changed description {count} of seed {seed}");
                description_report(&name, &case, &difference)
            })?;
            count += 1;
        }
    }
    println!("changed descriptions: {count}");
    Ok(())
}

/// Compares on generated cases and texts, and prints how many there are, or reports a difference.
fn compare_cases(comparer: &mut Comparer, cases: u64, seed: u64, first: u64) -> Result<(), String> {
    progress::stage("cases", cases);
    let start = Instant::now();
    for number in first..first.saturating_add(cases) {
        progress::step();
        let case = generate::case(seed, number);
        comparer
            .case(&case, number)
            .and_then(|()| comparer.account(&case, number))
            .map_err(|difference| {
                let (case, difference) = shrink::case(seed, number, &case, difference);
                case_report(&format!("case {number} of seed {seed}"), &case, &difference)
            })?;
        let text = texts::text(seed, number);
        comparer.text(&text, number).map_err(|difference| {
            let (text, difference) = shrink::text(seed, number, &text, difference);
            text_report(&format!("text {number} of seed {seed}"), &text, &difference)
        })?;
        comparer.editions(&case).map_err(|difference| {
            let (case, difference) = shrink::case(seed, number, &case, difference);
            case_report(&format!("case {number} of seed {seed}"), &case, &difference)
        })?;
        let sheet = sheet(seed, number);
        comparer.sheet(&sheet, number).map_err(|difference| {
            let (sheet, difference) = shrink::sheet(seed, number, &sheet, difference);
            sheet_report(
                &format!("sheet {number} of seed {seed}"),
                &sheet,
                &difference,
            )
        })?;
        let described = descriptions::description(seed, number);
        comparer
            .description(&described, number)
            .map_err(|difference| {
                let (described, difference) =
                    shrink::description(seed, number, &described, difference);
                let name = format!("description {number} of seed {seed}");
                description_report(&name, &described, &difference)
            })?;
        let tag = tags::tag(seed, number);
        comparer.tag(&tag, number).map_err(|difference| {
            let (tag, difference) = shrink::tag(seed, number, &tag, difference);
            tag_report(&format!("tag {number} of seed {seed}"), &tag, &difference)
        })?;
        let mend = mend(seed, number);
        comparer.mend(&mend, number).map_err(|difference| {
            mend_report(
                &format!("mended file {number} of seed {seed}"),
                &mend,
                &difference,
            )
        })?;
        let run = shelf_run(seed, number);
        comparer.shelf(&run, number).map_err(|difference| {
            shelf_report(&format!("run {number} of seed {seed}"), &run, &difference)
        })?;
        let title = title(seed, number);
        comparer.title(&title, number).map_err(|difference| {
            let (title, difference) = shrink::title(seed, number, &title, difference);
            title_report(
                &format!("title {number} of seed {seed}"),
                &title,
                &difference,
            )
        })?;
    }
    let seconds = start.elapsed().as_secs_f64();
    let rate = cases as f64 / seconds;
    println!(
        "cases: {cases} from number {first}, seed {seed}; {seconds:.1} s, {rate:.0} per second"
    );
    Ok(())
}

/// Compares on generated pairs, and prints how many there are and in what kinds of private places
/// they differ, or reports a difference.
fn compare_pairs(comparer: &mut Comparer, pairs: u64, seed: u64, first: u64) -> Result<(), String> {
    progress::stage("pairs", pairs);
    let start = Instant::now();
    for number in first..first.saturating_add(pairs) {
        progress::step();
        let pair = generate::pair(seed, number);
        comparer.pair(&pair, number).map_err(|difference| {
            let (pair, difference) = shrink::pair(seed, number, &pair, difference);
            pair_report(&format!("pair {number} of seed {seed}"), &pair, &difference)
        })?;
        comparer
            .title_pair(&pair, number)
            .and_then(|()| comparer.account_pair(&pair, number))
            .and_then(|()| comparer.mend_pair(&pair, seed, number))
            .map_err(|difference| {
                let (pair, difference) = shrink::pair(seed, number, &pair, difference);
                pair_report(&format!("pair {number} of seed {seed}"), &pair, &difference)
            })?;
    }
    let seconds = start.elapsed().as_secs_f64();
    let rate = pairs as f64 / seconds;
    println!(
        "pairs: {pairs} from number {first}, seed {seed}; {seconds:.1} s, {rate:.0} per second"
    );
    let [hidden, inline, outside] = comparer.private;
    println!(
        "pairs that differ in hidden data: {hidden}, in inline data: {inline}, outside header, tree \
         and detached nodes: {outside}, in the resource asked for: {}",
        comparer.resources
    );
    let [corrected, differ] = comparer.title_pairs;
    println!("pairs with a title corrected: {corrected}, with results that differ: {differ}");
    let [mended, differ] = comparer.mend_pairs;
    println!("pairs mended: {mended}, with copies that differ: {differ}");
    Ok(())
}

/// Prints what has been compared, the changed samples included.
fn print_counts(comparer: &Comparer) {
    println!(
        "comparisons: {} answers, tables, sheets and texts, with {} words and bytes",
        comparer.comparisons, comparer.values
    );
    println!("files read: {}", comparer.outcomes[0]);
    println!(
        "files refused, by number: {}",
        by_number(&comparer.outcomes)
    );
    let [converted, .., no_room, _, _, _, bad] = comparer.texts;
    println!("texts: {converted} converted, {no_room} refused with 22, {bad} with 26");
    println!(
        "sheets: {} moved; refused, by number: {}; files whose two editions move to each other: {}",
        comparer.sheets[0],
        by_number(&comparer.sheets),
        comparer.editions
    );
    println!(
        "counts: {} given; refused, by number: {}",
        comparer.counts[0],
        by_number(&comparer.counts)
    );
    println!(
        "accounts: {} given; refused, by number: {}",
        comparer.accounts[0],
        by_number(&comparer.accounts)
    );
    println!(
        "tags: {} walked; refused, by number: {}",
        comparer.tags[0],
        by_number(&comparer.tags)
    );
    println!(
        "calls on a shelf: {} answered; refused, by number: {}",
        comparer.shelf_calls[0],
        by_number(&comparer.shelf_calls)
    );
    let [again, alike] = comparer.apart;
    println!("desks asked again: {again}, with 28 at the same calls: {alike}");
    println!(
        "titles: {} corrected; refused, by number: {}",
        comparer.titles[0],
        by_number(&comparer.titles)
    );
    println!(
        "headers: {} mended, {} of them with no line, {} to what the file was before; refused, by number: {}",
        comparer.mends[0],
        comparer.unchanged,
        comparer.restored,
        by_number(&comparer.mends)
    );
}

/// The refusals that occur, each with its count.
fn by_number(counts: &[u64]) -> String {
    let refusals = counts.iter().enumerate().skip(1);
    let refusals: Vec<String> = refusals
        .filter(|(_, count)| **count > 0)
        .map(|(number, count)| format!("{number}: {count}"))
        .collect();
    refusals.join(", ")
}

/// Tells a difference between the readers.
fn case_report(name: &str, case: &Case, difference: &Difference) -> String {
    format!(
        "difference in {name}, proved and plain\n{}file: {}\n",
        asked(difference, case.row, &case.field, &case.lent),
        hex(&case.file)
    )
}

/// Tells a difference between the readers on a text.
fn text_report(name: &str, text: &Text, difference: &Difference) -> String {
    let Difference { asked, what } = difference;
    format!(
        "difference in {name}, proved and plain\ninto: {asked}\n{what}\nroom {}\ngiven: {}\n",
        text.room,
        hex(&text.given)
    )
}

/// Tells a difference between the readers on a sheet.
fn sheet_report(name: &str, sheet: &Sheet, difference: &Difference) -> String {
    let Difference { what, .. } = difference;
    format!(
        "difference in {name}, proved and plain\n{what}\nroom {}\nsheet: {}\n",
        sheet.room,
        hex(&sheet.given)
    )
}

/// Tells a difference between the readers on a content description.
fn description_report(name: &str, case: &Described, difference: &Difference) -> String {
    let Difference { asked, what } = difference;
    format!(
        "difference in {name}, proved and plain\nquestion: {asked}\n{what}\nitem row {}, channel {}, \
         resource {}, {:?}\nfile: {}\n",
        case.row,
        case.channel,
        case.resource,
        case.lent,
        hex(&case.file)
    )
}

/// Tells a difference between the readers on a tag.
fn tag_report(name: &str, tag: &Tag, difference: &Difference) -> String {
    let Difference { what, .. } = difference;
    format!(
        "difference in {name}, proved and plain\n{what}\nframe {}\ntag: {}\n",
        tag.frame,
        hex(&tag.bytes)
    )
}

/// Tells a difference between the readers on a run of calls on a shelf.
fn shelf_report(name: &str, run: &Run, difference: &Difference) -> String {
    let Difference { what, .. } = difference;
    format!("difference in {name}, proved and plain\n{what}\n{run:?}\n")
}

/// Tells a difference between the readers on a title.
fn title_report(name: &str, title: &Title, difference: &Difference) -> String {
    let Difference { what, .. } = difference;
    format!(
        "difference in {name}, proved and plain\n{what}\nitem row {}, {:?}\nfile: {}\ndata: {}\n",
        title.row,
        title.lent,
        hex(&title.file),
        hex(&title.data)
    )
}

/// Tells a difference between the readers on a file that is mended.
fn mend_report(name: &str, mend: &Mend, difference: &Difference) -> String {
    let Difference { what, .. } = difference;
    format!(
        "difference in {name}, proved and plain\n{what}\nbytes for lines {}, {:?}\nfile: {}\nbefore: {}\n",
        mend.space,
        mend.lent,
        hex(&mend.file),
        hex(&mend.before)
    )
}

/// Tells a difference between the files of a pair.
fn pair_report(name: &str, pair: &Pair, difference: &Difference) -> String {
    format!(
        "difference in {name}, first and second file\n{}first file: {}\nsecond file: {}\n",
        asked(difference, pair.row, &pair.field, &pair.lent),
        hex(&pair.first),
        hex(&pair.second)
    )
}

/// A difference and what was asked.
fn asked(difference: &Difference, row: u64, field: &Field, lent: &Lent) -> String {
    let Difference { asked, what } = difference;
    format!("question: {asked}\n{what}\nrow {row}, field {field:?}, {lent:?}\n")
}

/// Bytes in hexadecimal; of a long file only the first ones.
fn hex(bytes: &[u8]) -> String {
    let shown = &bytes[..bytes.len().min(MOST_SHOWN)];
    let mut text = format!("{} bytes ", bytes.len());
    for byte in shown {
        write!(text, "{byte:02x}").expect("a string takes all");
    }
    if shown.len() < bytes.len() {
        text += "..";
    }
    text
}
