//! What `File`, `Node`, `Item`, `MendedFile`, `Tag` and `Shelf` give, beside the words of the same call.

use xmf::{card, item, node, Content, Field, File, Format, HeaderField, Item, Label, Node};
use xmf::{Reference, Refusal, RefusalKind, Shelf, Tables, Tag, Totals, Verdict, Version};
use xmf::{ALL_CARD_WORDS, ALL_ITEM_WORDS, ALL_NODE_WORDS, LINES_ROOM, MOST_CARDS};

const SAMPLES: [&[u8]; 9] = [
    include_bytes!("../../../samples/cut.xmf"),
    include_bytes!("../../../samples/detached.xmf"),
    include_bytes!("../../../samples/folders.xmf"),
    include_bytes!("../../../samples/header.xmf"),
    include_bytes!("../../../samples/mobile.xmf"),
    include_bytes!("../../../samples/type.xmf"),
    include_bytes!("../../../samples/unicode.xmf"),
    include_bytes!("../../../samples/versions000.xmf"),
    include_bytes!("../../../samples/worked.xmf"),
];
const WORKED: &[u8] = SAMPLES[8];
const DETACHED: &[u8] = SAMPLES[1];
const MENDABLE: &[u8] = include_bytes!("../../../samples/mendable.xmf");
const REFUSALS: &str = include_str!("../../../share/refusals.tsv");
const CHECKS: &str = include_str!("../../../share/checks.tsv");
const FIELDS: &str = include_str!("../../../share/fields.tsv");

/// The lines of a table, each as its fields.
fn rows(table: &'static str) -> impl Iterator<Item = Vec<&'static str>> {
    let lines = table.lines().filter(|line| !line.starts_with('#'));
    lines.map(|line| line.split('\t').collect())
}

/// The words that a node was made of.
fn node_words(node: &Node) -> [u64; node::WORDS] {
    let (target, extent) = match node.reference {
        Reference::InNode { place, length }
        | Reference::InFile { place, length }
        | Reference::Uri { place, length } => (place, length),
        Reference::Node { place } => (place, 0),
        other => panic!("{other:?}"),
    };
    [
        node.start,
        node.length,
        node.header_length,
        node.contained,
        node.parent.unwrap_or(node.row),
        node.depth,
        node.reference.number() as usize,
        target,
        extent,
        node.unpackers,
        node.unpacker_count,
        node.items,
        usize::from(node.detached),
    ]
    .map(|word| word as u64)
}

/// The words that an item was made of.
fn item_words(file: &[u8], item: &Item) -> [u64; item::WORDS] {
    let (kind, field, name_length) = match item.field {
        Field::Standard(number) => (0, number, 0),
        Field::Custom(name) => {
            let place = name.as_ptr() as usize - file.as_ptr() as usize;
            (1, place as u64, name.len() as u64)
        }
        other => panic!("{other:?}"),
    };
    let (version, kind_of_version) = match item.content {
        Content::Universal => (0, 0),
        Content::Version { number, kind } => (number, kind),
        other => panic!("{other:?}"),
    };
    let data = item.data();
    assert_eq!(data, &file[item.place..][..data.len()]);
    [
        item.node as u64,
        item.number as u64,
        kind,
        field,
        name_length,
        version,
        kind_of_version,
        item.format.number(),
        item.place as u64,
        data.len() as u64,
    ]
}

/// All rows of a file are those in words.
fn compare_rows(file: &File, nodes: &[u64], items: &[u64]) {
    for (row, words) in file.nodes().zip(nodes.chunks(node::WORDS)) {
        assert_eq!(node_words(&row), words);
        assert_eq!(file.node(row.row), Some(row));
        assert_eq!(file.items_of(row.row).count(), row.items);
    }
    for (row, words) in file.items().zip(items.chunks(item::WORDS)) {
        assert_eq!(item_words(file.bytes(), &row), words);
        assert_eq!(file.item(row.row), Some(row));
    }
    assert_eq!(file.node(file.nodes().len()), None);
    assert_eq!(file.item(file.items().len()), None);
}

#[test]
fn each_answer_is_that_of_the_words() {
    let mut tables = Box::new(Tables::new());
    let mut nodes = vec![0; ALL_NODE_WORDS];
    let mut items = vec![0; ALL_ITEM_WORDS];
    let mut read = 0;
    for bytes in SAMPLES {
        let tree = xmf::read_tree(bytes, &mut nodes, &mut items);
        let mut file = match File::read(bytes, &mut tables) {
            Ok(file) => file,
            Err(refusal) => {
                assert_eq!(tree, Err(refusal));
                continue;
            }
        };
        read += 1;
        let tree = tree.unwrap();
        assert_eq!(file.version().number(), tree.version);
        assert_eq!(
            (file.nodes().len(), file.items().len()),
            (tree.nodes, tree.items)
        );
        compare_rows(&file, &nodes, &items);
        let (mut nodes2, mut items2) = (nodes.clone(), items.clone());
        let (nodes2, items2) = (&mut nodes2, &mut items2);
        let [mut room, mut room2] = [[7; 2000]; 2];
        for row in 0..=tree.nodes {
            for field in [Field::RESOURCE_FORMAT, Field::TITLE, Field::Custom(b"key")] {
                let found = xmf::find(bytes, nodes2, items2, row, field);
                let item = file.find(row, field);
                assert_eq!(item.as_ref().map(|i| i.row), found.as_ref().map(|f| f.row));
                if let (Ok(item), Ok(found)) = (item, found) {
                    assert_eq!(item_words(bytes, &item), found.words);
                    assert_eq!(file.item(item.row), Some(item));
                }
                let found = xmf::find_own(bytes, nodes2, items2, row, field);
                assert_eq!(
                    file.find_own(row, field).map(|item| item.row),
                    found.map(|f| f.row)
                );
            }
            assert_eq!(file.resolve(row), xmf::resolve(bytes, nodes2, items2, row));
            let resource = xmf::resource(bytes, nodes2, items2, row);
            assert_eq!(file.resource(row), resource);
            assert_eq!(file.copy_resource(row, &mut room), resource);
            // Whatever was refused, the rows are there.
            compare_rows(&file, &nodes, &items);
        }
        for row in 0..=tree.items {
            let count = xmf::voice_count(bytes, nodes2, items2, row, 0, 0);
            assert_eq!(file.voice_count(row, 0, 0), count);
            let length = xmf::correct_title(bytes, nodes2, items2, row, b"x", &mut room2);
            assert_eq!(
                file.retitle(row, b"x", &mut room),
                length.map(|length| &room2[..length])
            );
            assert_eq!(room, room2);
            compare_rows(&file, &nodes, &items);
        }
        let verdict = xmf::judge(bytes, nodes2, items2);
        assert_eq!(file.judge().map(Verdict::number), verdict);
        let kinds = file.kinds().unwrap();
        assert_eq!(kinds.counts().iter().sum::<u64>(), bytes.len() as u64);
        let length = xmf::write_sheet(bytes, nodes2, items2, &mut room).unwrap();
        assert_eq!(file.write_sheet(&mut room2), Ok(&room[..length]));
        let first = room2;
        let length2 = xmf::write_sheet2(bytes, nodes2, items2, &mut room).unwrap();
        assert_eq!(file.write_sheet2(&mut room2), Ok(&room[..length2]));
        assert_eq!(
            xmf::other_edition(&first[..length], &mut room2),
            Ok(&room[..length2])
        );
        assert_eq!(
            file.write_sheet(&mut []),
            Err(Refusal {
                number: 22,
                place: 0
            })
        );
        compare_rows(&file, &nodes, &items);
    }
    assert_eq!(read, 6);
}

#[test]
fn a_mended_file_is_that_of_the_words() {
    let mut tables = Box::new(Tables::new());
    let (mut nodes, mut items) = (vec![0; ALL_NODE_WORDS], vec![0; ALL_ITEM_WORDS]);
    let [mut room, mut copy] = [[7; 1000]; 2];
    let mut changed = 0;
    for bytes in SAMPLES.into_iter().chain([MENDABLE]) {
        let mut lines = [7; LINES_ROOM];
        let words = xmf::mend(bytes, &mut nodes, &mut items, &mut copy, &mut lines);
        let mended = tables.mend(bytes, &mut room);
        assert_eq!(mended.map(|file| file.bytes().len()), words.map(|w| w.copy));
        if let (Ok(mended), Ok(words)) = (mended, words) {
            assert_eq!(mended.bytes(), &copy[..words.copy]);
            assert_eq!(mended.lines().as_bytes(), &lines[..words.lines]);
            let told = mended.changes().map(|change| {
                let (name, place) = (change.field.name(), change.place);
                format!("{name}\t{place}\t{}\t{}\n", change.old, change.new)
            });
            assert_eq!(told.collect::<String>(), mended.lines());
            assert_eq!(mended.is_changed(), mended.bytes() != bytes);
            assert_eq!(mended.is_changed(), !mended.lines().is_empty());
            changed += usize::from(mended.is_changed());
            assert!(!format!("{mended:?}").contains("170"), "{mended:?}");
            assert!(File::read(mended.bytes(), &mut tables).is_ok());
        }
        assert_eq!(room, copy);
    }
    assert_eq!(changed, 1);
    let mended = tables.mend(MENDABLE, &mut room).unwrap();
    assert_eq!(mended.bytes(), WORKED);
    let fields: Vec<_> = mended.changes().map(|change| change.field).collect();
    assert_eq!(fields, [HeaderField::FileLength, HeaderField::TreeEnd]);
    let no_room = tables.mend(MENDABLE, &mut [0; 55]).unwrap_err();
    assert_eq!(no_room.kind(), RefusalKind::NoRoom);
}

#[test]
fn a_shelf_keeps_what_is_put() {
    let (mut cards, mut text) = ([0; ALL_CARD_WORDS], [0; MOST_CARDS * 8]);
    let label = |desk| Label {
        desk,
        call: 4711,
        boat: 12,
    };
    let refused = |kind: RefusalKind| -> Result<(), Refusal> {
        Err(Refusal {
            number: kind.number(),
            place: 0,
        })
    };
    let mut shelf = Shelf::new(&mut cards, &mut text);
    let mut room = [7; 9];
    for desk in 0..16 {
        assert_eq!(shelf.put(label(desk), b"XMF\t2.00"), Ok(()));
    }
    assert_eq!(shelf.put(label(16), b""), refused(RefusalKind::NoFreeCard));
    assert_eq!(
        shelf.put(label(16), b"XMF\t2.00\t"),
        refused(RefusalKind::SheetTooLong)
    );
    assert_eq!(shelf.put(label(3), b""), refused(RefusalKind::AlreadyThere));
    assert_eq!(shelf.get(label(3), &mut room), Ok(&b"XMF\t2.00"[..]));
    assert_eq!(room[8], 0);
    assert_eq!(shelf.drop(label(3)), Ok(()));
    assert_eq!(shelf.drop(label(3)), refused(RefusalKind::NoSuchCard));
    assert_eq!(shelf.put(label(16), b"XMF"), Ok(()));
    assert_eq!(shelf.get(label(16), &mut room), Ok(&b"XMF"[..]));
    assert_eq!(
        shelf.get(label(16), &mut room[..2]).unwrap_err().kind(),
        RefusalKind::NoRoom
    );
    assert!(!format!("{shelf:?}").contains("4711"), "{shelf:?}");
    // The sheet of desk 16 has the card and the part that desk 3 had.
    assert_eq!(cards[3 * card::WORDS..][..card::WORDS], [16, 4711, 12, 3]);
    assert_eq!(&text[3 * 8..][..8], b"XMF\0\0\0\0\0");
    cards[card::LENGTH] = 9;
    let shelf = Shelf::new(&mut cards, &mut text);
    assert_eq!(
        shelf.get(label(1), &mut room).unwrap_err().kind(),
        RefusalKind::DamagedShelf
    );
}

#[test]
fn refusals_and_verdicts_have_the_tables_texts() {
    for (row, number) in rows(REFUSALS).zip(1..) {
        let kind = RefusalKind::of(number);
        assert_eq!(row[0], number.to_string());
        assert_eq!((kind.number(), kind.name()), (number, row[1]));
        assert_eq!(
            (kind.meaning(), kind.to_string().as_str()),
            (row[2], row[2])
        );
        let refusal = Refusal { number, place: 3 };
        assert_eq!(refusal.kind(), kind);
        let said: &dyn std::error::Error = &refusal;
        assert_eq!(
            said.to_string(),
            format!("refusal {number} at 3: {}", row[2])
        );
    }
    for number in [0, 40, u64::MAX] {
        assert_eq!(RefusalKind::of(number), RefusalKind::Unlisted);
    }
    assert_eq!(RefusalKind::Unlisted.number(), 0);
    for (row, number) in rows(CHECKS).zip(0..) {
        assert_eq!(Verdict::of(number).number(), number);
        assert_eq!(Verdict::of(number).to_string(), row[1]);
    }
    assert_eq!(Verdict::of(9).meaning(), "not in the list");
    assert_eq!(
        xmf::VERSION,
        include_str!("../../../share/version").trim_end()
    );
    assert_eq!(xmf::VERSION, env!("CARGO_PKG_VERSION"));
}

#[test]
fn names_have_their_numbers() {
    let fields = [
        (Field::FILE_TYPE, "XMF file type"),
        (Field::NODE_NAME, "node name"),
        (Field::NODE_NUMBER, "node ID number"),
        (Field::RESOURCE_FORMAT, "resource format"),
        (Field::FILENAME, "filename on disk"),
        (Field::FILENAME_EXTENSION, "filename extension on disk"),
        (Field::MAC_OS_TYPE, "Mac OS file type and creator"),
        (Field::MIME_TYPE, "MIME type"),
        (Field::TITLE, "title"),
        (Field::COPYRIGHT, "copyright"),
        (Field::COMMENT, "comment"),
        (Field::AUTOSTART, "autostart"),
        (Field::PRELOAD, "preload"),
        (Field::CONTENT_DESCRIPTION, "content description"),
        (Field::ID3, "ID3 metadata"),
    ];
    let listed: Vec<_> = rows(FIELDS).collect();
    assert_eq!(listed.len(), fields.len());
    for (row, (field, name)) in listed.iter().zip(fields) {
        assert_eq!(field, Field::Standard(row[0].parse().unwrap()));
        assert_eq!(row[1], name);
    }
    for number in 0..12 {
        assert_eq!(Format::of(number).number(), number);
        assert_eq!(Format::of(number).is_hidden(), number % 2 == 1);
    }
    for number in [100, 101, 200, 123] {
        assert_eq!(Version::of(number).number(), number);
    }
    assert_eq!(Version::V101.to_string(), "1.01");
}

#[test]
fn hidden_data_is_not_printed() {
    let mut tables = Tables::default();
    let file = File::read(WORKED, &mut tables).unwrap();
    let [shown, hidden] = [0, 1].map(|row| format!("{:?}", file.item(row).unwrap()));
    assert!(shown.contains("data: [72, 105]"), "{shown}");
    assert!(!hidden.contains("data"), "{hidden}");
    assert!(hidden.contains("length: 2"), "{hidden}");
    assert!(!format!("{:?}", Tables::default()).contains('0'));
}

#[test]
fn detached_nodes_have_no_parent() {
    let mut tables = Tables::default();
    let file = File::read(DETACHED, &mut tables).unwrap();
    for node in file.nodes() {
        assert_eq!(node.detached, node.row >= 4);
        assert_eq!(node.parent.is_none(), node.detached || node.row == 0);
    }
    assert!(file.node(0).unwrap().is_folder());
}

#[test]
fn totals_tags_and_texts() {
    let mut tables = Tables::default();
    let mut totals = Totals::default();
    for bytes in SAMPLES {
        let _ = tables.account(bytes, &mut totals);
    }
    assert_eq!((totals.files, totals.refused), (9, 3));

    let tag = b"ID3\x04\0\0\0\0\0\x19TIT2\0\0\0\x02\0\0HiTPE1\0\0\0\x03\0\0abc";
    let frames: Vec<_> = Tag::read(tag).unwrap().frames().collect();
    let names: Vec<_> = frames.iter().map(|f| (f.name, f.data())).collect();
    assert_eq!(names, [(*b"TIT2", &b"Hi"[..]), (*b"TPE1", b"abc")]);
    assert_eq!(Tag::read(b"ID3").unwrap_err().kind(), RefusalKind::NotATag);

    let mut room = [0; 40];
    let data = xmf::to_utf16("Færge 𝄞", &mut room).unwrap().to_vec();
    assert_eq!(xmf::to_utf8(&data, &mut room), Ok("Færge 𝄞"));
    let odd = xmf::to_utf8(&data[1..], &mut room).unwrap_err();
    assert_eq!(odd.kind(), RefusalKind::BadText);
}
