//! What a file consists of, before it is written as bytes.
//!
//! Lengths, counts and places aren't stated here: they follow when the file is written. A model may
//! describe a file that a reader has to refuse, such as a folder with unpackers.

use crate::random::Random;

/// A whole file.
#[derive(Clone, Debug)]
pub struct File {
    /// The version, with type and revision in 2.00.
    pub version: Version,
    /// How many bytes the numbers have.
    pub widths: Widths,
    /// The entries of the types table.
    pub types: Vec<TypeEntry>,
    /// What stands between the file header and the tree.
    pub gap: Vec<Part>,
    /// The tree.
    pub root: Node,
    /// What stands after the tree.
    pub tail: Vec<Part>,
}

/// A part of the file outside header and tree.
#[derive(Clone, Debug)]
pub enum Part {
    /// Bytes that are no node.
    Bytes(Vec<u8>),
    /// A detached node. It has a row if a node with a row names it by [`Place::Detached`].
    Node(Node),
}

/// A version of the format.
#[derive(Clone, Copy, Debug, PartialEq, Eq)]
pub enum Version {
    /// Version 1.00.
    V100,
    /// Version 1.01.
    V101,
    /// Version 2.00, with the file's type and its revision.
    V200 {
        /// The type of the file; 2 is Mobile XMF.
        kind: u32,
        /// The revision of the type.
        revision: u32,
    },
}

/// How many bytes the numbers of a file have.
#[derive(Clone, Copy, Debug, PartialEq, Eq)]
pub enum Widths {
    /// Each number has its shortest form.
    Least,
    /// Some numbers are padded, to at most four bytes; the seed fixes which, and to how many.
    Mixed(u64),
    /// Each number is padded to four bytes.
    Four,
}

/// An entry of the types table.
#[derive(Clone, Debug)]
pub struct TypeEntry {
    /// The type that versions name.
    pub number: usize,
    /// The string format of its versions.
    pub format: usize,
    /// The name of the language.
    pub language: Vec<u8>,
}

/// A node.
#[derive(Clone, Debug)]
pub struct Node {
    /// The metadata items.
    pub items: Vec<Item>,
    /// The unpackers.
    pub unpackers: Vec<Unpacker>,
    /// The contents.
    pub contents: Contents,
}

/// The contents of a node.
#[derive(Clone, Debug)]
pub enum Contents {
    /// Nodes, by reference 1.
    Folder(Vec<Node>),
    /// Bytes in the node, by reference 1.
    Inline(Vec<u8>),
    /// Bytes in the file, by reference 2.
    InFile(Place),
    /// Another node, by reference 3.
    Node(Place),
    /// A URI, by reference 4.
    Uri(Vec<u8>),
}

/// A place in the file, known once the file is written.
#[derive(Clone, Copy, Debug)]
pub enum Place {
    /// The first byte of the tree's node with this row.
    Node(usize),
    /// The second byte of the tree's node with this row, where no node starts.
    InNode(usize),
    /// The first byte of a detached node, by its number among them in file order.
    Detached(usize),
    /// A number of bytes after the header's end.
    AfterHeader(usize),
    /// A number of bytes after the tree's end.
    AfterTree(usize),
    /// A number of bytes before the file's end.
    BeforeEnd(usize),
    /// A fixed place.
    Fixed(usize),
}

/// A metadata item.
#[derive(Clone, Debug)]
pub struct Item {
    /// The field.
    pub field: Field,
    /// The content or contents.
    pub values: Values,
}

/// A field of an item.
#[derive(Clone, Debug, PartialEq, Eq)]
pub enum Field {
    /// A standard field, by its number.
    Standard(usize),
    /// A custom field, by its name.
    Custom(Vec<u8>),
}

/// The contents of an item.
#[derive(Clone, Debug)]
pub enum Values {
    /// One content for all languages.
    Universal {
        /// The string format.
        format: usize,
        /// The data.
        data: Vec<u8>,
    },
    /// Contents by type, each a type and its data.
    Versions(Vec<(usize, Vec<u8>)>),
}

/// An unpacker.
#[derive(Clone, Debug)]
pub struct Unpacker {
    /// Which unpacker.
    pub name: UnpackerName,
    /// The decoded size.
    pub size: usize,
}

/// The name of an unpacker.
#[derive(Clone, Debug)]
pub enum UnpackerName {
    /// Kind 0: a number.
    Standard(usize),
    /// Kind 1: a manufacturer, one byte or three, and a number.
    Manufacturer(Vec<u8>, usize),
    /// Kind 2: a number.
    Registered(usize),
    /// Kind 3: a GUID.
    Guid(Vec<u8>),
}

impl File {
    /// A file with this tree and nothing else, its numbers in the shortest form.
    pub fn new(version: Version, root: Node) -> Self {
        File {
            version,
            widths: Widths::Least,
            types: Vec::new(),
            gap: Vec::new(),
            root,
            tail: Vec::new(),
        }
    }

    /// The tree's nodes, in row order.
    pub fn tree(&self) -> Vec<&Node> {
        let mut nodes = Vec::new();
        self.root.collect(&mut nodes);
        nodes
    }

    /// The detached nodes, in file order, with rows or without.
    pub fn detached(&self) -> Vec<&Node> {
        let parts = self.gap.iter().chain(&self.tail);
        parts.filter_map(Part::node).collect()
    }

    /// The numbers of the detached nodes that have rows, in row order.
    pub fn reached(&self) -> Vec<usize> {
        let detached = self.detached();
        let mut nodes = self.tree();
        let mut reached = Vec::new();
        let mut row = 0;
        while row < nodes.len() {
            if let Contents::Node(Place::Detached(number)) = nodes[row].contents {
                if !reached.contains(&number) {
                    reached.push(number);
                    nodes.push(detached[number]);
                }
            }
            row += 1;
        }
        reached
    }

    /// All nodes that have rows, in row order.
    pub fn nodes(&self) -> Vec<&Node> {
        let detached = self.detached();
        let mut nodes = self.tree();
        nodes.extend(self.reached().into_iter().map(|number| detached[number]));
        nodes
    }

    /// Adds a detached node at the file's end and gives its place.
    pub fn add_detached(&mut self, node: Node) -> Place {
        let number = self.detached().len();
        self.tail.push(Part::Node(node));
        Place::Detached(number)
    }

    /// Calls a function on each node: on the tree's in row order with their rows, then on the
    /// detached ones in file order with the numbers that follow.
    pub fn for_each_node(&mut self, mut change: impl FnMut(usize, &mut Node)) {
        let mut number = 0;
        self.root.visit(&mut number, &mut change);
        for part in self.gap.iter_mut().chain(&mut self.tail) {
            if let Part::Node(node) = part {
                change(number, node);
                number += 1;
            }
        }
    }

    /// The number of item rows that the file has.
    pub fn item_rows(&self) -> usize {
        let nodes = self.nodes();
        nodes
            .iter()
            .flat_map(|node| &node.items)
            .map(Item::rows)
            .sum()
    }

    /// Whether versions of this type are hidden; an undeclared type isn't.
    pub fn is_hidden_type(&self, number: usize) -> bool {
        self.types
            .iter()
            .any(|entry| entry.number == number && entry.format % 2 == 1)
    }
}

impl Part {
    /// The detached node, if the part is one.
    fn node(&self) -> Option<&Node> {
        match self {
            Part::Bytes(_) => None,
            Part::Node(node) => Some(node),
        }
    }
}

impl Widths {
    /// The least number of bytes of a number in the file, by its index there.
    pub fn of(self, index: usize) -> usize {
        match self {
            Widths::Least => 1,
            Widths::Mixed(seed) => {
                let mut random = Random::for_case(seed, index as u64);
                random.pick(&[1, 1, 1, 2, 3, 4])
            }
            Widths::Four => 4,
        }
    }
}

impl Node {
    /// A node without items and unpackers.
    pub fn new(contents: Contents) -> Self {
        Node {
            items: Vec::new(),
            unpackers: Vec::new(),
            contents,
        }
    }

    /// A folder without items.
    pub fn folder(children: Vec<Node>) -> Self {
        Node::new(Contents::Folder(children))
    }

    /// A file node with these bytes in it.
    pub fn inline(bytes: &[u8]) -> Self {
        Node::new(Contents::Inline(bytes.to_vec()))
    }

    /// The same node with these items.
    pub fn with_items(mut self, items: Vec<Item>) -> Self {
        self.items = items;
        self
    }

    /// The nodes held; none for a file node.
    pub fn children(&self) -> &[Node] {
        match &self.contents {
            Contents::Folder(children) => children,
            _ => &[],
        }
    }

    /// The nodes held, to be changed; nothing for a file node.
    pub fn children_mut(&mut self) -> Option<&mut Vec<Node>> {
        match &mut self.contents {
            Contents::Folder(children) => Some(children),
            _ => None,
        }
    }

    /// Whether the node is a folder.
    pub fn is_folder(&self) -> bool {
        matches!(self.contents, Contents::Folder(_))
    }

    fn collect<'a>(&'a self, nodes: &mut Vec<&'a Node>) {
        nodes.push(self);
        for child in self.children() {
            child.collect(nodes);
        }
    }

    fn visit(&mut self, row: &mut usize, change: &mut impl FnMut(usize, &mut Node)) {
        change(*row, self);
        *row += 1;
        if let Some(children) = self.children_mut() {
            for child in children {
                child.visit(row, change);
            }
        }
    }
}

impl Item {
    /// A universal item of a standard field.
    pub fn standard(number: usize, format: usize, data: &[u8]) -> Self {
        Item {
            field: Field::Standard(number),
            values: Values::Universal {
                format,
                data: data.to_vec(),
            },
        }
    }

    /// A universal item of a custom field.
    pub fn custom(name: &[u8], format: usize, data: &[u8]) -> Self {
        Item {
            field: Field::Custom(name.to_vec()),
            values: Values::Universal {
                format,
                data: data.to_vec(),
            },
        }
    }

    /// The number of item rows of this item.
    pub fn rows(&self) -> usize {
        match &self.values {
            Values::Universal { .. } => 1,
            Values::Versions(versions) => versions.len(),
        }
    }
}

impl Field {
    /// Whether hidden data of this field may differ between two files that are to give the same
    /// answers.
    pub fn is_free(&self) -> bool {
        !matches!(self, Field::Standard(0 | 3 | 13))
    }
}
