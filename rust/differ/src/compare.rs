//! Comparing two readers on a case, a text, a sheet, a title, a header or a run of calls on a shelf, and
//! two files of a pair on one reader.

use crate::buffers::{Buffers, Noise};
use crate::mends::Bench;
use crate::readers::{account_plain, account_proved, Sums};
use crate::readers::{ask_plain, ask_proved, ask_words, resource_proved};
use crate::readers::{convert_plain, convert_proved, convert_words};
use crate::readers::{frame_plain, frame_proved, frames_plain, frames_proved};
use crate::readers::{known, Answer, Question, Subject, QUESTIONS};
use crate::readers::{move_plain, move_proved};
use crate::shelves::{answers, Lent as OnShelf, Sheets};
use crate::titles::{private, says, Desk};
use generate::cases::{ALL_ROOM, KINDS};
use generate::descriptions::Described;
use generate::encode::PRIVATE_KINDS;
use generate::mends::{fields, mend_pair, Mend};
use generate::model::Field;
use generate::sheets::Sheet;
use generate::shelves::{Run, CARD_WORDS};
use generate::tags::Tag;
use generate::texts::Text;
use generate::titles::Title;
use generate::{Case, Lent, Pair};
use std::fmt::Debug;

/// The largest answer buffer that is lent as words.
const MOST_ANSWER_WORDS: u64 = 16;
/// The words after an answer buffer, which must not change.
const ANSWER_GUARD: usize = 4;
/// The bytes after the room of a conversion, which must not change.
const TEXT_GUARD: usize = 16;
/// What is said when something else than what is lent has changed.
const NOT_LENT: &str = "a word or byte that was not lent has changed";
/// The account of a file's bytes, in reports.
const ACCOUNT: &str = "Account";
/// The number of files after which totals begin anew: more than there may be.
const MOST_SUMMED: u64 = 1_100;
/// The correction of a title, in reports.
const TITLE: &str = "Title";
/// The mending of a header, in reports.
const MEND: &str = "Mend";
/// The walk of a tag, in reports.
const TAG: &str = "Tag";
/// The shelf, in reports.
const SHELF: &str = "Shelf";
/// The mover of sheets, in reports.
const MOVE: &str = "Move";
/// What answer buffers and their guards hold before.
const MARK: u64 = 0x5A5A_5A5A_5A5A_5A5A;

/// Compares, counts what is compared, and holds what that needs.
pub struct Comparer {
    first: Buffers,
    second: Buffers,
    noise: Noise,
    /// The number of answers, tables, sheets and texts compared.
    pub comparisons: u64,
    /// The number of words and bytes in them.
    pub values: u64,
    /// For each refusal number, how many files of cases are refused so for reading the tree; at 0
    /// how many are read.
    pub outcomes: [u64; 25],
    /// For each kind of private places, how many pairs differ in it.
    pub private: [u64; PRIVATE_KINDS.len()],
    /// How many pairs differ in the resource asked for.
    pub resources: u64,
    /// For each refusal number, how many texts are refused so; at 0 how many are converted.
    pub texts: [u64; 27],
    /// For each refusal number, how many sheets are refused so; at 0 how many are moved.
    pub sheets: [u64; 32],
    /// For each refusal number, how many tags are refused so; at 0 how many are walked.
    pub tags: [u64; 36],
    /// For each refusal number, how many calls on a shelf are refused so; at 0 how many are answered.
    pub shelf_calls: [u64; 40],
    /// How many desks of runs were asked again with other calls of the others, and of how many of them the
    /// same calls met 28.
    pub apart: [u64; 2],
    /// How many files have both editions of their sheet moved.
    pub editions: u64,
    /// For each refusal number, how many counts are refused so; at 0 how many are given.
    pub counts: [u64; 27],
    /// The totals of the files so far, and how many there were.
    totals: Sums,
    summed: u64,
    /// For each refusal number, how many accounts are refused so; at 0 how many are given.
    pub accounts: [u64; 33],
    /// For each refusal number, how many titles are refused so; at 0 how many are corrected.
    pub titles: [u64; 39],
    /// How many pairs have a title corrected, and how many of those results differ.
    pub title_pairs: [u64; 2],
    /// For each refusal number, how many files are refused so when they are mended; at 0 how many are
    /// mended.
    pub mends: [u64; 25],
    /// How many mended files have no line, and how many are what they were before.
    pub unchanged: u64,
    pub restored: u64,
    /// How many pairs are mended, and how many of those copies differ.
    pub mend_pairs: [u64; 2],
}

/// Two values that should be equal.
#[derive(Clone, Debug)]
pub struct Difference {
    /// The question asked, or the conversion.
    pub asked: String,
    /// What differs, and both values.
    pub what: String,
}

impl Comparer {
    /// A comparer; the seed fixes what tables hold before a question.
    pub fn new(seed: u64) -> Self {
        Comparer {
            first: Buffers::new(),
            second: Buffers::new(),
            noise: Noise::new(seed),
            comparisons: 0,
            values: 0,
            outcomes: [0; 25],
            private: [0; PRIVATE_KINDS.len()],
            resources: 0,
            texts: [0; 27],
            sheets: [0; 32],
            tags: [0; 36],
            shelf_calls: [0; 40],
            apart: [0; 2],
            editions: 0,
            counts: [0; 27],
            totals: [0; 11],
            summed: 0,
            accounts: [0; 33],
            titles: [0; 39],
            title_pairs: [0; 2],
            mends: [0; 25],
            unchanged: 0,
            restored: 0,
            mend_pairs: [0; 2],
        }
    }

    /// Asks both readers everything about a case. The questions take turns in being the first.
    ///
    /// When the case lends zeros, the first question finds zeros and each other one what the
    /// question before it left. When it lends other values, each question finds such values.
    pub fn case(&mut self, case: &Case, number: u64) -> Result<(), Difference> {
        let about = Subject {
            file: &case.file,
            row: case.row,
            field: &case.field,
            count: counted(number),
        };
        self.first.resize(&case.lent);
        self.second.resize(&case.lent);
        if case.lent.stale == 0 {
            self.first.clear();
            self.second.clear();
        }
        let turn = number as usize / KINDS.len();
        for step in 0..QUESTIONS.len() {
            let question = QUESTIONS[(turn + step) % QUESTIONS.len()];
            if case.lent.stale != 0 {
                let noise = case.lent.stale ^ step as u64;
                self.fill(question, noise, noise);
            }
            let proved = ask_proved(question, about, self.first.lend());
            let plain = ask_plain(question, about, self.second.lend());
            if question == Question::Tree {
                self.outcomes[plain[0] as usize] += 1;
            }
            self.answer(question, &proved, &plain)?;
            self.left(question)?;
            if step == 0 {
                let room = (number / 80) % (MOST_ANSWER_WORDS + 1);
                self.words(question, about, &plain, room as usize)?;
            }
        }
        Ok(())
    }

    /// Asks the proved reader everything about both files of a pair.
    pub fn pair(&mut self, pair: &Pair, number: u64) -> Result<(), Difference> {
        let [first, second] = [&pair.first, &pair.second].map(|file| Subject {
            file,
            row: pair.row,
            field: &pair.field,
            count: counted(number),
        });
        self.first.resize(&pair.lent);
        self.second.resize(&pair.lent);
        for question in QUESTIONS {
            self.fill(question, number, !number);
            let left = ask_proved(question, first, self.first.lend());
            let right = ask_proved(question, second, self.second.lend());
            if question == Question::Tree && left[0] != 0 {
                return Err(Difference {
                    asked: format!("{question:?}"),
                    what: format!("the first file is refused: {left:?}"),
                });
            }
            self.answer(question, &left, &right)?;
            if question == Question::Resource {
                self.copies(first, second, &left)?;
            }
            self.left(question)?;
            if question == Question::Resolve {
                self.fill(question, !number, number);
                self.resources(first, second, &left)?;
            }
        }
        for (count, kind) in self.private.iter_mut().zip(PRIVATE_KINDS) {
            *count += u64::from(pair.differs_in(kind));
        }
        Ok(())
    }

    /// Asks the proved reader for the resources of both files. Each must be the part of its file that
    /// the answer names, so they differ only where the files do; none after a refusal.
    fn resources(
        &mut self,
        first: Subject,
        second: Subject,
        answer: &Answer,
    ) -> Result<(), Difference> {
        let left = resource_proved(first, self.first.lend());
        let right = resource_proved(second, self.second.lend());
        let [_, _, place, length, ..] = answer.map(|word| word as usize);
        for (part, about) in [(left, first), (right, second)] {
            self.count(part.len());
            let named = about.file.get(place..).and_then(|rest| rest.get(..length));
            if named != Some(part) {
                return Err(Difference {
                    asked: format!("{:?}", Question::Resolve),
                    what: format!("a resource is not what the answer names: {answer:?}"),
                });
            }
        }
        self.resources += u64::from(left != right);
        self.left(Question::Resolve)
    }

    /// Each buffer must begin with the part of its file that the answer names, so they differ only where
    /// the files do. The parts are cleared here, and what is then left is compared as any buffer is.
    fn copies(
        &mut self,
        first: Subject,
        second: Subject,
        answer: &Answer,
    ) -> Result<(), Difference> {
        let [_, _, place, length, ..] = answer.map(|word| word as usize);
        self.count(length);
        self.count(length);
        for (buffers, about) in [(&mut self.first, first), (&mut self.second, second)] {
            let named = about.file.get(place..).and_then(|rest| rest.get(..length));
            let copied = buffers.lend().sheet.get_mut(..length);
            match (named, copied) {
                (Some(named), Some(copied)) if named == copied => copied.fill(0),
                _ => {
                    return Err(Difference {
                        asked: format!("{:?}", Question::Resource),
                        what: format!("a copy is not what the answer names: {answer:?}"),
                    })
                }
            }
        }
        Ok(())
    }

    /// Sets what a question finds in the first and in the second buffers.
    fn fill(&mut self, question: Question, first: u64, second: u64) {
        self.fill_tables(first, second);
        if question.fills_room() {
            self.first.fill_sheet(&self.noise, first);
            self.second.fill_sheet(&self.noise, second);
        }
    }

    /// Sets the tables of both readers to values that are fixed by two numbers.
    fn fill_tables(&mut self, first: u64, second: u64) {
        self.first.fill_tables(&self.noise, first);
        self.second.fill_tables(&self.noise, second);
    }

    /// Asks the proved reader again, with a buffer of `room` words for the answer.
    fn words(
        &mut self,
        question: Question,
        about: Subject,
        expected: &Answer,
        room: usize,
    ) -> Result<(), Difference> {
        let mut answer = [MARK; MOST_ANSWER_WORDS as usize + ANSWER_GUARD];
        ask_words(question, about, self.first.lend(), &mut answer[..room]);
        self.answer(question, &answer, &fitted(expected, room))?;
        self.left(question)
    }

    /// Asks both readers for the count of a content description, and once more with an answer buffer of
    /// 0 to 16 words. Where the answer is known, it is that.
    pub fn description(&mut self, case: &Described, number: u64) -> Result<(), Difference> {
        let question = Question::Count;
        let about = Subject {
            file: &case.file,
            row: case.row,
            field: &Field::Standard(13),
            count: [case.channel, case.resource],
        };
        self.first.resize(&case.lent);
        self.second.resize(&case.lent);
        self.fill(question, number, number);
        let proved = ask_proved(question, about, self.first.lend());
        let plain = ask_plain(question, about, self.second.lend());
        self.counts[plain[0] as usize] += 1;
        self.answer(question, &proved, &plain)?;
        self.left(question)?;
        let room = number % (MOST_ANSWER_WORDS + 1);
        self.words(question, about, &plain, room as usize)?;
        match known(case) {
            Some(answer) => self.answer(question, &answer, &plain),
            None => Ok(()),
        }
    }

    /// Counts the bytes of a file by both readers, with the same totals, and once more with the totals
    /// and the answer in 0 to 16 words. The totals run on from file to file, past as many as may be
    /// summed, and then begin anew; for some files they are any others.
    pub fn account(&mut self, case: &Case, number: u64) -> Result<(), Difference> {
        let given = self.totals_for(number);
        self.first.resize(&case.lent);
        self.second.resize(&case.lent);
        self.fill_tables(number, number);
        let mut sums = [given; 2];
        let [left, right] = &mut sums;
        let proved = account_proved(&case.file, self.first.lend(), left);
        let plain = account_plain(&case.file, self.second.lend(), right);
        self.accounts[plain[0] as usize] += 1;
        self.answer(ACCOUNT, &proved, &plain)?;
        self.answer(ACCOUNT, &sums[0], &sums[1])?;
        self.tables(ACCOUNT)?;
        let total: u64 = proved[2..].iter().sum();
        if proved[0] == 0 && total != case.file.len() as u64 {
            return Err(Difference {
                asked: ACCOUNT.to_string(),
                what: format!("the counts sum to {total}"),
            });
        }

        let words = number as usize % (MOST_ANSWER_WORDS as usize + 1);
        let lent = number as usize / 17 % (MOST_ANSWER_WORDS as usize + 1);
        let mut answer = [MARK; MOST_ANSWER_WORDS as usize + ANSWER_GUARD];
        let mut totals = answer;
        totals[..lent.min(11)].copy_from_slice(&given[..lent.min(11)]);
        let mut wanted = totals;
        let mut fewer = [0; 11];
        fewer[..lent.min(11)].copy_from_slice(&given[..lent.min(11)]);
        let expected = account_plain(&case.file, self.second.lend(), &mut fewer);
        wanted[..lent.min(11)].copy_from_slice(&fewer[..lent.min(11)]);
        let tables = self.first.lend();
        xmf::words::account(
            &case.file,
            tables.nodes,
            tables.items,
            &mut totals[..lent],
            &mut answer[..words],
        );
        self.answer(ACCOUNT, &answer, &fitted(&expected, words))?;
        self.answer(ACCOUNT, &totals, &wanted)?;
        self.tables(ACCOUNT)?;
        if number % 8 != 3 {
            self.totals = sums[0];
        }
        Ok(())
    }

    /// The totals that a file is asked about with: those so far, or for one of eight any others.
    fn totals_for(&mut self, number: u64) -> Sums {
        if number % 8 == 3 {
            let mut sums = [u64::MAX - number % 40; 11];
            sums[0] = [0, 998, 999, 1000, 1001, u64::MAX][number as usize / 8 % 6];
            return sums;
        }
        self.summed += 1;
        if self.summed > MOST_SUMMED {
            self.summed = 1;
            self.totals = [0; 11];
        }
        self.totals
    }

    /// Counts the bytes of both files of a pair by the proved reader, with the same totals.
    pub fn account_pair(&mut self, pair: &Pair, number: u64) -> Result<(), Difference> {
        self.first.resize(&pair.lent);
        self.second.resize(&pair.lent);
        self.fill_tables(number, !number);
        let mut sums = [[number % 1001; 11]; 2];
        let [left, right] = &mut sums;
        let first = account_proved(&pair.first, self.first.lend(), left);
        let second = account_proved(&pair.second, self.second.lend(), right);
        self.answer(ACCOUNT, &first, &second)?;
        self.answer(ACCOUNT, &sums[0], &sums[1])?;
        self.tables(ACCOUNT)
    }

    /// Converts a text by both readers, and once more with an answer buffer of 0 to 16 words.
    pub fn text(&mut self, text: &Text, number: u64) -> Result<(), Difference> {
        let (answer, _) = self.written(
            text.into,
            text.room,
            number,
            |room| convert_proved(text, room),
            |room| convert_plain(text, room),
            |room, answer| convert_words(text, room, answer),
        )?;
        self.texts[answer[0] as usize] += 1;
        Ok(())
    }

    /// Walks a tag by both readers, for the number of its frames and for one of them, and both once more
    /// with an answer buffer of 0 to 16 words.
    pub fn tag(&mut self, tag: &Tag, number: u64) -> Result<(), Difference> {
        let Tag { bytes, frame } = tag;
        let words = (number % (MOST_ANSWER_WORDS + 1)) as usize;
        let count = frames_plain(bytes);
        self.tags[count[0] as usize] += 1;
        self.answer(TAG, &frames_proved(bytes), &count)?;
        let mut answer = [MARK; MOST_ANSWER_WORDS as usize + ANSWER_GUARD];
        xmf::words::id3_count(bytes, &mut answer[..words]);
        self.answer(TAG, &answer, &fitted(&count, words))?;
        let one = frame_plain(bytes, *frame);
        self.answer(TAG, &frame_proved(bytes, *frame), &one)?;
        let mut answer = [MARK; MOST_ANSWER_WORDS as usize + ANSWER_GUARD];
        xmf::words::id3_frame(bytes, *frame as usize, &mut answer[..words]);
        self.answer(TAG, &answer, &fitted(&one, words))
    }

    /// Makes a run of calls on a shelf by both readers, each call once more with an answer buffer of 0 to 16
    /// words. Where the calls alone change the shelf, the answers must be those that follow from what was
    /// put and not dropped. Then the run is made again with some of the others' calls left out: a desk that
    /// meets 28 at the same calls must be answered the same.
    pub fn shelf(&mut self, run: &Run, number: u64) -> Result<(), Difference> {
        let (mut first, mut second) = (OnShelf::new(run), OnShelf::new(run));
        let known = run.calls_alone && run.words / CARD_WORDS <= 16;
        let mut sheets = Sheets::default();
        for (index, step) in run.steps.iter().enumerate() {
            let mut third = first.clone();
            let proved = first.proved(step);
            let plain = second.plain(step);
            if let (Some(proved), Some(plain)) = (proved, plain) {
                self.shelf_calls[plain[0] as usize] += 1;
                self.answer(SHELF, &proved, &plain)?;
                let room = (number as usize + index) % (MOST_ANSWER_WORDS as usize + 1);
                let mut answer = [MARK; MOST_ANSWER_WORDS as usize + ANSWER_GUARD];
                third.words(step, &mut answer[..room]);
                self.answer(SHELF, &answer, &fitted(&plain, room))?;
                self.on_shelf(&third, &second)?;
                if known && !sheets.allow(run, step, &proved, &first.room) {
                    return Err(Difference {
                        asked: SHELF.to_string(),
                        what: format!("step {index}, {step:?}: answer {proved:?}"),
                    });
                }
            }
            self.on_shelf(&first, &second)?;
        }
        if !run.calls_alone {
            return Ok(());
        }
        for desk in 1..=3 {
            let all = answers(run, desk, |_| true);
            let some = answers(run, desk, |index| (index as u64 ^ number).is_multiple_of(3));
            self.apart[0] += 1;
            let full = |answers: &[(Answer, Vec<u8>)]| -> Vec<bool> {
                answers.iter().map(|(answer, _)| answer[0] == 28).collect()
            };
            if full(&all) == full(&some) {
                self.apart[1] += 1;
                self.count(all.len());
                equal(SHELF, "answers of a desk", &all, &some)?;
            }
        }
        Ok(())
    }

    /// Compares what is left of two shelves, with what is behind them, and in the room of get.
    fn on_shelf(&mut self, first: &OnShelf, second: &OnShelf) -> Result<(), Difference> {
        self.count(first.cards.len());
        equal(SHELF, "cards", &first.cards, &second.cards)?;
        self.count(first.text.len());
        equal(SHELF, "text", &first.text, &second.text)?;
        self.count(first.room.len());
        equal(SHELF, "buffer", &first.room, &second.room)
    }

    /// Moves a sheet by both readers, and once more with an answer buffer of 0 to 16 words. A sheet
    /// that is well formed must move to its other edition, and what it moves to must move back to it.
    pub fn sheet(&mut self, sheet: &Sheet, number: u64) -> Result<(), Difference> {
        let given = &sheet.given;
        let (answer, room) = self.written(
            MOVE,
            sheet.room,
            number,
            |room| move_proved(given, room),
            |room| move_plain(given, room),
            |room, answer| xmf::words::move_sheet(given, room, answer),
        )?;
        self.sheets[answer[0] as usize] += 1;
        if let Some(other) = &sheet.other {
            let expected = match other.len() <= sheet.room {
                true => [0, 0, other.len() as u64],
                false => [22, 0, 0],
            };
            self.answer(MOVE, &answer[..3], &expected)?;
            if answer[0] == 0 {
                self.count(other.len());
                equal(MOVE, "other edition", &room[..other.len()], other)?;
            }
        }
        match answer[0] {
            0 => self.moves(&room[..answer[2] as usize], given),
            _ => Ok(()),
        }
    }

    /// Moves a sheet by the proved function, with just the room it needs: it must move to the other one.
    fn moves(&mut self, sheet: &[u8], other: &[u8]) -> Result<(), Difference> {
        let mut room = vec![MARK as u8; other.len()];
        let answer = move_proved(sheet, &mut room);
        self.answer(MOVE, &answer[..3], &[0, 0, other.len() as u64])?;
        self.count(other.len());
        equal(MOVE, "sheet moved", &room, other)
    }

    /// Writes both editions of a case's sheet by the proved reader: each must move to the other.
    pub fn editions(&mut self, case: &Case) -> Result<(), Difference> {
        let mut nodes = vec![MARK; case.lent.node_words];
        let mut items = vec![MARK; case.lent.item_words];
        let [mut first, mut second] = [(); 2].map(|()| vec![MARK as u8; ALL_ROOM]);
        let one = xmf::write_sheet(&case.file, &mut nodes, &mut items, &mut first);
        let two = xmf::write_sheet2(&case.file, &mut nodes, &mut items, &mut second);
        if let (Ok(one), Ok(two)) = (one, two) {
            self.editions += 1;
            self.moves(&first[..one], &second[..two])?;
            self.moves(&second[..two], &first[..one])?;
        }
        Ok(())
    }

    /// Writes into room by both readers, with the same bytes in it before, and once more with an answer
    /// buffer of 0 to 16 words. Gives the answer and the room.
    fn written(
        &mut self,
        asked: impl Debug + Copy,
        size: usize,
        number: u64,
        proved: impl Fn(&mut [u8]) -> Answer,
        plain: impl Fn(&mut [u8]) -> Answer,
        words: impl Fn(&mut [u8], &mut [u64]),
    ) -> Result<(Answer, Vec<u8>), Difference> {
        let lent = self.noise.bytes(number, size + TEXT_GUARD).to_vec();
        let mut rooms = [lent.clone(), lent.clone(), lent.clone()];
        let [first, second, third] = &mut rooms;
        let answer = proved(&mut first[..size]);
        let expected = plain(&mut second[..size]);
        let fitting = (number % (MOST_ANSWER_WORDS + 1)) as usize;
        let mut short = [MARK; MOST_ANSWER_WORDS as usize + ANSWER_GUARD];
        words(&mut third[..size], &mut short[..fitting]);

        self.answer(asked, &answer, &expected)?;
        self.answer(asked, &short, &fitted(&expected, fitting))?;
        let [first, second, third] = rooms;
        for other in [second, third] {
            self.count(other.len());
            equal(asked, "room", &first, &other)?;
        }
        if first[size..] != lent[size..] {
            return Err(Difference {
                asked: format!("{asked:?}"),
                what: NOT_LENT.to_string(),
            });
        }
        Ok((answer, first))
    }

    /// Corrects a title by both readers, with the same values lent, and once more with an answer buffer
    /// of 0 to 16 words. The result must be the known one, if it is known; its rows must be those in the
    /// tables; it must say what the file says but for that data; and the same title again must give it
    /// again.
    pub fn title(&mut self, title: &Title, number: u64) -> Result<(), Difference> {
        let desk = Desk::new(&title.lent);
        let mut desks = [desk.clone(), desk.clone(), desk];
        let [first, second, third] = &mut desks;
        let proved = first.proved(&title.file, title.row, &title.data);
        let plain = second.plain(title);
        let words = (number % (MOST_ANSWER_WORDS + 1)) as usize;
        let mut answer = [MARK; MOST_ANSWER_WORDS as usize + ANSWER_GUARD];
        third.words(title, &mut answer[..words]);

        self.titles[plain[0] as usize] += 1;
        self.answer(TITLE, &proved, &plain)?;
        self.answer(TITLE, &answer, &fitted(&plain, words))?;
        let [first, second, third] = &desks;
        self.desks(first, second)?;
        self.desks(first, third)?;
        if !first.are_guards_kept(title.lent.stale) {
            return Err(title_difference(NOT_LENT.to_string()));
        }
        let length = proved[2] as usize;
        match &title.answer {
            Some(Ok(bytes)) if proved[0] == 0 => {
                equal(TITLE, "known file", first.file(length), bytes)?
            }
            Some(Err(refusal)) => equal(TITLE, "known refusal", &proved[..1], &[*refusal])?,
            Some(Ok(_)) => return Err(title_difference(format!("refused: {proved:?}"))),
            None => {}
        }
        match proved[0] {
            0 => self.corrected(title, first, length),
            _ => Ok(()),
        }
    }

    /// Looks at the file of `length` bytes that was written.
    fn corrected(&mut self, title: &Title, desk: &Desk, length: usize) -> Result<(), Difference> {
        let new = desk.file(length);
        let [mut old_rows, mut new_rows] = [Desk::new(&title.lent), Desk::new(&title.lent)];
        let (Some(old_tree), Some(new_tree)) = (old_rows.read(&title.file), new_rows.read(new))
        else {
            return Err(title_difference("a file is not read".to_string()));
        };
        for (left, right) in desk.tables().iter().zip(new_rows.tables()) {
            self.count(left.len());
            equal(TITLE, "table of the new file", left, right)?;
        }
        let mut said = says(&title.file, &old_rows, old_tree);
        said[title.row as usize].2.clone_from(&title.data);
        self.count(said.len());
        equal(
            TITLE,
            "what is said",
            &said,
            &says(new, &new_rows, new_tree),
        )?;

        let mut again = Desk::new(&Lent {
            room: length + title.lent.room % 7,
            ..title.lent
        });
        let answer = again.proved(new, title.row, &title.data);
        self.count(length);
        equal(TITLE, "answer", &answer[..3], &[0, 0, length as u64])?;
        equal(TITLE, "file written again", new, again.file(length))
    }

    /// Corrects a title of both files of a pair by the proved reader: the answers and tables must be
    /// equal, and the results differ only at private places of the first.
    pub fn title_pair(&mut self, pair: &Pair, number: u64) -> Result<(), Difference> {
        let lent = Lent {
            room: pair.first.len() + 40,
            ..pair.lent
        };
        let data = self.noise.bytes(number, number as usize % 9).to_vec();
        let mut desks = [Desk::new(&lent), Desk::new(&lent)];
        let tree = desks[0].read(&pair.first).expect("a file that is read");
        let row = number % tree.items.max(1) as u64;
        let [left, right] = &mut desks;
        let answer = left.proved(&pair.first, row, &data);
        let second = right.proved(&pair.second, row, &data);
        self.answer(TITLE, &answer, &second)?;
        let [left, right] = &desks;
        for (left, right) in left.tables().iter().zip(right.tables()) {
            self.count(left.len());
            equal(TITLE, "table", left, right)?;
        }
        if answer[0] != 0 {
            self.count(left.room().len());
            return equal(TITLE, "room", left.room(), right.room());
        }
        let length = answer[2] as usize;
        let [first, second] = [left.file(length), right.file(length)];
        self.count(length);
        let mut rows = Desk::new(&lent);
        let tree = rows.read(first).expect("a file that was written is read");
        let private = private(first, &rows, tree);
        let place = (0..length).find(|&at| first[at] != second[at] && !private[at]);
        if let Some(place) = place {
            return Err(title_difference(format!("the results differ at {place}")));
        }
        self.title_pairs[0] += 1;
        self.title_pairs[1] += u64::from(first != second);
        Ok(())
    }

    /// Mends a header by both readers, with the same values lent, and once more with an answer buffer of
    /// 0 to 16 words. The copy must differ from the file at the two fields only, and be read into the
    /// same tables; it must be what the file was before its fields were overwritten, if that is read;
    /// and mending it again must change nothing and give no line.
    pub fn mend(&mut self, mend: &Mend, number: u64) -> Result<(), Difference> {
        let bench = Bench::new(&mend.lent, mend.space);
        let mut benches = [bench.clone(), bench.clone(), bench];
        let [first, second, third] = &mut benches;
        let proved = first.proved(&mend.file);
        let plain = second.plain(mend);
        let words = (number % (MOST_ANSWER_WORDS + 1)) as usize;
        let mut answer = [MARK; MOST_ANSWER_WORDS as usize + ANSWER_GUARD];
        third.words(&mend.file, &mut answer[..words]);

        self.mends[plain[0] as usize] += 1;
        self.answer(MEND, &proved, &plain)?;
        self.answer(MEND, &answer, &fitted(&plain, words))?;
        let [first, second, third] = &benches;
        self.benches(first, second)?;
        self.benches(first, third)?;
        if !first.are_guards_kept(mend.lent.stale) {
            return Err(mend_difference(NOT_LENT.to_string()));
        }
        let mut rows = Bench::new(&mend.lent, mend.space);
        let was_read = rows.reads(&mend.before);
        // a file that is read, whose two fields have the bytes that they had: only their values were overwritten
        let is_known = was_read && fields(&mend.before) == fields(&mend.file);
        if proved[0] != 0 {
            if is_known && proved[0] != 22 {
                return Err(mend_difference("a file is not mended back".to_string()));
            }
            return Ok(());
        }
        let copy = &first.copy[..proved[2] as usize];
        self.count(copy.len());
        if is_known {
            equal(MEND, "file before", copy, &mend.before)?;
            self.restored += 1;
        }
        self.unchanged += u64::from(proved[3] == 0);
        if (proved[3] == 0) != (copy == mend.file) {
            return Err(mend_difference(
                "the lines do not tell of a change".to_string(),
            ));
        }
        let places = fields(&mend.file).ok_or_else(|| mend_difference("no fields".to_string()))?;
        let differs = |at: &usize| copy[*at] != mend.file[*at];
        if (0..copy.len())
            .filter(differs)
            .any(|at| places.iter().all(|field| !field.contains(&at)))
        {
            return Err(mend_difference("another byte has changed".to_string()));
        }
        if !rows.reads(copy) {
            return Err(mend_difference("the copy is not read".to_string()));
        }
        self.count(rows.nodes.len() + rows.items.len());
        equal(MEND, "node table of the copy", &first.nodes, &rows.nodes)?;
        equal(MEND, "item table of the copy", &first.items, &rows.items)?;

        let mut again = Bench::new(&mend.lent, 0);
        let answer = again.proved(copy);
        let length = copy.len();
        self.count(length);
        equal(MEND, "answer", &answer[..4], &[0, 0, length as u64, 0])?;
        equal(MEND, "file mended again", copy, &again.copy[..length])
    }

    /// Mends both files of a pair, with their fields overwritten in the same way, by the proved reader: the
    /// answers, the lines and the tables must be equal, and the copies differ exactly where the files do.
    pub fn mend_pair(&mut self, pair: &Pair, seed: u64, number: u64) -> Result<(), Difference> {
        let [left, right] = mend_pair(pair, seed, number);
        let lent = Lent {
            room: left.len() + number as usize % 3,
            ..pair.lent
        };
        let mut benches = [Bench::new(&lent, 80), Bench::new(&lent, 80)];
        let [first, second] = &mut benches;
        let answer = first.proved(&left);
        self.answer(MEND, &answer, &second.proved(&right))?;
        let [first, second] = &benches;
        self.count(first.nodes.len() + first.items.len() + first.lines.len());
        equal(MEND, "node table", &first.nodes, &second.nodes)?;
        equal(MEND, "item table", &first.items, &second.items)?;
        equal(MEND, "lines", &first.lines, &second.lines)?;
        if answer[0] != 0 {
            self.count(first.copy.len());
            return equal(MEND, "copy", &first.copy, &second.copy);
        }
        let length = answer[2] as usize;
        self.count(length);
        let there: Vec<bool> = (0..length).map(|at| left[at] != right[at]).collect();
        let copies: Vec<bool> = (0..length)
            .map(|at| first.copy[at] != second.copy[at])
            .collect();
        equal(MEND, "places where the copies differ", &there, &copies)?;
        equal(
            MEND,
            "bytes behind the copy",
            &first.copy[length..],
            &second.copy[length..],
        )?;
        self.mend_pairs[0] += 1;
        self.mend_pairs[1] += u64::from(first.copy != second.copy);
        Ok(())
    }

    /// Compares the tables and the buffers that two calls of mending leave.
    fn benches(&mut self, first: &Bench, second: &Bench) -> Result<(), Difference> {
        self.count(first.nodes.len() + first.items.len());
        equal(MEND, "node table", &first.nodes, &second.nodes)?;
        equal(MEND, "item table", &first.items, &second.items)?;
        self.count(first.copy.len() + first.lines.len());
        equal(MEND, "copy", &first.copy, &second.copy)?;
        equal(MEND, "lines", &first.lines, &second.lines)
    }

    /// Compares the tables and the room that two calls leave.
    fn desks(&mut self, first: &Desk, second: &Desk) -> Result<(), Difference> {
        for (left, right) in first.tables().iter().zip(second.tables()) {
            self.count(left.len());
            equal(TITLE, "table", left, right)?;
        }
        self.count(first.room().len());
        equal(TITLE, "room", first.room(), second.room())
    }

    fn answer(
        &mut self,
        question: impl Debug,
        first: &[u64],
        second: &[u64],
    ) -> Result<(), Difference> {
        self.count(first.len());
        equal(question, "answer", first, second)
    }

    /// Compares what is left in the buffers.
    fn left(&mut self, question: Question) -> Result<(), Difference> {
        if question.fills_room() {
            equal(question, "buffer", self.first.sheet(), self.second.sheet())?;
            self.count(self.first.sheet().len());
        }
        self.tables(question)
    }

    /// Compares what is left in the tables, and sees that nothing else has changed.
    fn tables(&mut self, question: impl Debug) -> Result<(), Difference> {
        self.count(self.first.nodes().len());
        self.count(self.first.items().len());
        let (first, second) = (&self.first, &self.second);
        equal(&question, "node table", first.nodes(), second.nodes())?;
        equal(&question, "item table", first.items(), second.items())?;
        if !(self.first.are_guards_kept() && self.second.are_guards_kept()) {
            return Err(Difference {
                asked: format!("{question:?}"),
                what: NOT_LENT.to_string(),
            });
        }
        Ok(())
    }

    fn count(&mut self, values: usize) {
        self.comparisons += 1;
        self.values += values as u64;
    }
}

/// The channel and the resource that a case asks for.
fn counted(number: u64) -> [u64; 2] {
    [number % 3, number / 3 % 3]
}

/// A difference in the correction of a title.
fn title_difference(what: String) -> Difference {
    Difference {
        asked: TITLE.to_string(),
        what,
    }
}

/// A difference in the mending of a header.
fn mend_difference(what: String) -> Difference {
    Difference {
        asked: MEND.to_string(),
        what,
    }
}

/// The words of an answer as a buffer of `room` words gets them, with the words after it.
fn fitted(answer: &Answer, room: usize) -> [u64; MOST_ANSWER_WORDS as usize + ANSWER_GUARD] {
    let mut wanted = [MARK; MOST_ANSWER_WORDS as usize + ANSWER_GUARD];
    wanted[..room].fill(0);
    let fitting = room.min(answer.len());
    wanted[..fitting].copy_from_slice(&answer[..fitting]);
    wanted
}

/// Whether two sequences of the same length are equal; otherwise where they first differ.
fn equal<T: PartialEq + Debug>(
    asked: impl Debug,
    name: &str,
    first: &[T],
    second: &[T],
) -> Result<(), Difference> {
    if first == second {
        return Ok(());
    }
    let mut both = first.iter().zip(second);
    let at = both.position(|(left, right)| left != right).unwrap_or(0);
    let what = if name == "answer" {
        format!("{name}: {first:?} and {second:?}")
    } else {
        let (left, right) = (&first[at], &second[at]);
        format!("{name}, first at {at}: {left:?} and {right:?}")
    };
    Err(Difference {
        asked: format!("{asked:?}"),
        what,
    })
}
