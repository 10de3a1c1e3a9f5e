//! Correcting a title: what is lent, what a file says, and where two results may differ.

use crate::readers::Answer;
use generate::titles::Title;
use plain::{item, node};

/// The words or bytes after what is lent, which must not change.
const GUARD: usize = 16;

/// The tables and the room of one call, each with a guard after what is lent.
#[derive(Clone, Debug, PartialEq, Eq)]
pub struct Desk {
    nodes: Vec<u64>,
    items: Vec<u64>,
    room: Vec<u8>,
}

impl Desk {
    /// Tables and room that hold the values of a case.
    pub fn new(lent: &generate::Lent) -> Self {
        let (mut nodes, mut items, mut room) = (lent.nodes(), lent.items(), lent.sheet());
        nodes.extend([lent.stale; GUARD]);
        items.extend([lent.stale; GUARD]);
        room.extend([lent.stale as u8; GUARD]);
        Desk { nodes, items, room }
    }

    /// Corrects the title of a file by the proved reader.
    pub fn proved(&mut self, file: &[u8], row: u64, data: &[u8]) -> Answer {
        let [nodes, items] = [&mut self.nodes, &mut self.items].map(|words| lent(words));
        let room = lent(&mut self.room);
        let answer = xmf::correct_title(file, nodes, items, row as usize, data, room);
        crate::readers::counted(answer.map_err(|refusal| (refusal.number, refusal.place)))
    }

    /// The same with the answer as words, in a buffer of any size.
    pub fn words(&mut self, title: &Title, answer: &mut [u64]) {
        let [nodes, items] = [&mut self.nodes, &mut self.items].map(|words| lent(words));
        let (row, room) = (title.row as usize, lent(&mut self.room));
        xmf::words::correct_title(&title.file, nodes, items, row, &title.data, room, answer);
    }

    /// Corrects the title of a file by the plain reader.
    pub fn plain(&mut self, title: &Title) -> Answer {
        let [nodes, items] = [&mut self.nodes, &mut self.items].map(|words| lent(words));
        let room = lent(&mut self.room);
        let answer = plain::correct_title(&title.file, nodes, items, title.row, &title.data, room);
        crate::readers::counted(answer.map_err(|refusal| (refusal.number, refusal.place)))
    }

    /// Reads a file into the tables by the proved reader.
    pub fn read(&mut self, file: &[u8]) -> Option<xmf::Tree> {
        let [nodes, items] = [&mut self.nodes, &mut self.items].map(|words| lent(words));
        xmf::read_tree(file, nodes, items).ok()
    }

    /// The file of `length` bytes that was written.
    pub fn file(&self, length: usize) -> &[u8] {
        &self.room[..length]
    }

    /// Both tables, with their guards.
    pub fn tables(&self) -> [&[u64]; 2] {
        [&self.nodes, &self.items]
    }

    /// The room, with its guard.
    pub fn room(&self) -> &[u8] {
        &self.room
    }

    /// Whether nothing after what is lent has changed.
    pub fn are_guards_kept(&self, stale: u64) -> bool {
        let [nodes, items] = self.tables().map(|table| &table[table.len() - GUARD..]);
        nodes == [stale; GUARD]
            && items == [stale; GUARD]
            && self.room[self.room.len() - GUARD..] == [stale as u8; GUARD]
    }
}

/// What is lent of words or bytes with a guard.
fn lent<T>(all: &mut [T]) -> &mut [T] {
    let length = all.len() - GUARD;
    &mut all[..length]
}

/// What a row says: its words without places and lengths, its name, its data or resource.
type Said = (Vec<u64>, Vec<u8>, Vec<u8>);

/// What a file says, by its rows in the tables, item rows first.
pub fn says(file: &[u8], desk: &Desk, tree: xmf::Tree) -> Vec<Said> {
    let bytes = |place: u64, length: u64| file[place as usize..][..length as usize].to_vec();
    let items = desk.items.chunks(item::WORDS).take(tree.items);
    let items = items.map(|row| {
        let mut words = row.to_vec();
        let mut name = Vec::new();
        if row[item::KIND] == item::CUSTOM {
            name = bytes(row[item::FIELD], row[item::NAME_LENGTH]);
            words[item::FIELD] = 0;
        }
        words[item::DATA] = 0;
        words[item::DATA_LENGTH] = 0;
        (words, name, bytes(row[item::DATA], row[item::DATA_LENGTH]))
    });
    let nodes = desk.nodes.chunks(node::WORDS).take(tree.nodes);
    let nodes = nodes.map(|row| {
        let mut words = row.to_vec();
        for place_or_length in [
            node::START,
            node::LENGTH,
            node::HEADER_LENGTH,
            node::TARGET,
            node::EXTENT,
            node::UNPACKERS,
        ] {
            words[place_or_length] = 0;
        }
        let resource = match row[node::CONTAINED] {
            0 => bytes(row[node::TARGET], row[node::EXTENT]),
            _ => Vec::new(),
        };
        (words, Vec::new(), resource)
    });
    items.chain(nodes).collect()
}

/// Whether each place of a file is private, by its header and by its rows in the tables. No node has
/// reference 3.
pub fn private(file: &[u8], desk: &Desk, tree: xmf::Tree) -> Vec<bool> {
    let mut private = vec![true; file.len()];
    let mut set = |place: u64, length: u64, is_private| {
        private[place as usize..][..length as usize].fill(is_private);
    };
    set(0, header_end(file, tree.version) as u64, false);
    let root = &desk.nodes[..node::WORDS];
    set(root[node::START], root[node::LENGTH], false);
    for row in desk.nodes.chunks(node::WORDS).take(tree.nodes) {
        if row[node::CONTAINED] == 0 && row[node::REFERENCE] == 1 {
            set(row[node::TARGET], row[node::EXTENT], true);
        }
    }
    for row in desk.items.chunks(item::WORDS).take(tree.items) {
        let is_free = row[item::KIND] == item::CUSTOM || ![0, 3, 13].contains(&row[item::FIELD]);
        if is_free && row[item::FORMAT] % 2 == 1 {
            set(row[item::DATA], row[item::DATA_LENGTH], true);
        }
    }
    private
}

/// The place after the file header.
fn header_end(file: &[u8], version: u64) -> usize {
    let opening = if version == 200 { 16 } else { 8 };
    let (_, table) = number(file, opening);
    let (length, entries) = number(file, table);
    let (_, tree_end) = number(file, entries + length);
    let (_, end) = number(file, tree_end);
    end
}

/// The number at a place, and the place after it.
fn number(file: &[u8], at: usize) -> (usize, usize) {
    let more = file[at..].iter().take_while(|&&byte| byte >= 128).count();
    let bytes = &file[at..=at + more];
    let value = bytes
        .iter()
        .fold(0, |value, byte| value * 128 + usize::from(byte % 128));
    (value, at + bytes.len())
}
