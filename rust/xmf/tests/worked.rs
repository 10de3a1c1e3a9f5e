//! The questions about the worked file and one with detached nodes, and what the interface says of odd
//! arguments.

use xmf::{c, item, node, Field, Kinds, Refusal, Resource, Totals, Tree};
use xmf::{ALL_ITEM_WORDS, ALL_NODE_WORDS, ANSWER_WORDS};

const WORKED: &[u8] = include_bytes!("../../../samples/worked.xmf");
const DETACHED: &[u8] = include_bytes!("../../../samples/detached.xmf");
const SHEET: &str = "XMF\t2.00\t56\t2\t3\n\
                     N\t0\t0\t1\t1\t27\t29\n\
                     N\t1\t0\t2\t1\t54\t2\n\
                     M\t1\tC\ta\t0\t0\tHi\n\
                     M\t1\tS\t3\t0\t6\t\\00\\00\n";

fn tables() -> (Vec<u64>, Vec<u64>) {
    (vec![7; ALL_NODE_WORDS], vec![7; ALL_ITEM_WORDS])
}

fn refusal<T>(number: u64, place: u64) -> Result<T, Refusal> {
    Err(Refusal { number, place })
}

#[test]
fn each_question_is_answered() {
    let (mut nodes, mut items) = tables();
    let tree = Tree {
        version: 200,
        nodes: 2,
        items: 3,
    };
    assert_eq!(xmf::read_tree(WORKED, &mut nodes, &mut items), Ok(tree));
    assert_eq!(nodes[node::WORDS + node::TARGET], 54);
    assert!(nodes[2 * node::WORDS..].iter().all(|&word| word == 0));
    assert!(items[3 * item::WORDS..].iter().all(|&word| word == 0));

    let field = Field::Custom(b"a");
    let found = xmf::find(WORKED, &mut nodes, &mut items, 1, field).unwrap();
    assert_eq!(found.row, 0);
    assert_eq!(found.words[..], items[..item::WORDS]);
    let field = Field::Standard(3);
    let found = xmf::find(WORKED, &mut nodes, &mut items, 1, field).unwrap();
    assert_eq!(found.row, 2);

    let resource = Resource {
        place: 54,
        length: 2,
        row: 1,
        hops: 0,
    };
    let resolved = xmf::resolve(WORKED, &mut nodes, &mut items, 1);
    assert_eq!(resolved, Ok(resource));
    let part = xmf::resource(WORKED, &mut nodes, &mut items, 1);
    assert_eq!(part, Ok(&[0xAA, 0xBB][..]));

    assert_eq!(xmf::judge(WORKED, &mut nodes, &mut items), Ok(7));

    let mut sheet = [7; 200];
    let length = xmf::write_sheet(WORKED, &mut nodes, &mut items, &mut sheet).unwrap();
    assert_eq!(&sheet[..length], SHEET.as_bytes());
    assert!(sheet[length..].iter().all(|&byte| byte == 0));
}

#[test]
fn a_sheet_moves_over_and_back() {
    let (mut nodes, mut items) = tables();
    let [mut first, mut second, mut moved] = [[7; 500]; 3];
    let one = xmf::write_sheet(DETACHED, &mut nodes, &mut items, &mut first).unwrap();
    let two = xmf::write_sheet2(DETACHED, &mut nodes, &mut items, &mut second).unwrap();
    let text = String::from_utf8_lossy(&second[..two]);
    assert!(text.starts_with("XMF2\t2.00\t171\t7\t7\nN\t0\t0\t1\t1\t58\t51\nN\t1\t0\t2\t3\t109\t0\nM\t1\tS\t8\t0\t0\tWaltz\n"));
    assert_eq!(xmf::move_sheet(&first[..one], &mut moved), Ok(two));
    assert_eq!(moved, second);
    assert_eq!(xmf::move_sheet(&second[..two], &mut moved), Ok(one));
    assert_eq!(moved, first);

    for (sheet, line) in [
        (String::new(), 1),
        (SHEET.replace("N\t1", "N\t2"), 3),
        (SHEET.replace("\\00\n", "\\5C\n"), 5),
        (SHEET.replace("\t3\nN", "\t1\nN"), 1),
    ] {
        let answer = xmf::move_sheet(sheet.as_bytes(), &mut moved);
        assert_eq!(answer, refusal(31, line), "{sheet}");
        assert!(moved.iter().all(|&byte| byte == 0));
    }
    assert_eq!(
        xmf::move_sheet(&first[..one], &mut moved[..two - 1]),
        refusal(22, 0)
    );
}

#[test]
fn detached_nodes_have_rows() {
    let (mut nodes, mut items) = tables();
    let tree = xmf::read_tree(DETACHED, &mut nodes, &mut items).unwrap();
    assert_eq!((tree.nodes, tree.items), (7, 7));
    for (row, words) in (0..7).zip(nodes.chunks(node::WORDS)) {
        let is_detached = row >= 4;
        assert_eq!(words[node::DETACHED], u64::from(is_detached));
        if is_detached {
            assert_eq!((words[node::PARENT], words[node::DEPTH]), (row, 0));
        }
    }
    let resolved = xmf::resolve(DETACHED, &mut nodes, &mut items, 3).unwrap();
    assert_eq!((resolved.row, resolved.hops), (6, 2));
    let key = Field::Custom(b"key");
    let found = xmf::find(DETACHED, &mut nodes, &mut items, 4, key).unwrap();
    assert_eq!(found.words[item::NODE], 4);
    let found = xmf::find(DETACHED, &mut nodes, &mut items, 5, key);
    assert_eq!(found, refusal(23, 0));
}

/// A root with the standard field 9, and a child with none.
const FAMILY: &[u8] = b"XMF_1.00\x21\x01\x00\x0d\x20\x14\x01\x0c\x07\x00\x09\x00\x03\x00Hi\x00\x01\x07\x00\x05\x00\x00\x01\xaa";

#[test]
fn two_kinds_of_find() {
    let (mut nodes, mut items) = tables();
    let nine = Field::Standard(9);
    let own = xmf::find_own(FAMILY, &mut nodes, &mut items, 0, nine).unwrap();
    let near = xmf::find(FAMILY, &mut nodes, &mut items, 1, nine).unwrap();
    assert_eq!((own.row, own.words), (near.row, near.words));
    assert_eq!(own.words[item::NODE], 0);
    let found = xmf::find_own(FAMILY, &mut nodes, &mut items, 1, nine);
    assert_eq!(found, refusal(23, 0));
    assert!(nodes.iter().chain(&items).all(|&word| word == 0));
    let found = xmf::find_own(FAMILY, &mut nodes, &mut items, 2, nine);
    assert_eq!(found, refusal(18, 0));
    // Hidden items are found too.
    let hidden = Field::Custom(b"t");
    let found = xmf::find_own(WORKED, &mut nodes, &mut items, 1, hidden).unwrap();
    assert_eq!((found.row, found.words[item::FORMAT]), (1, 7));
}

#[test]
fn refusals_clear_what_is_lent() {
    let (mut nodes, mut items) = tables();
    let mut sheet = [7; 200];
    let cut = &WORKED[..55];
    let written = xmf::write_sheet(cut, &mut nodes, &mut items, &mut sheet);
    assert_eq!(written, refusal(5, 16));
    assert!(nodes.iter().chain(&items).all(|&word| word == 0));
    assert_eq!(sheet, [0; 200]);

    let (mut nodes, mut items) = tables();
    let found = xmf::find(WORKED, &mut nodes, &mut items, 1, Field::Standard(9));
    assert_eq!(found, refusal(23, 0));
    assert!(nodes.iter().chain(&items).all(|&word| word == 0));
    let resolved = xmf::resolve(WORKED, &mut nodes, &mut items, usize::MAX);
    assert_eq!(resolved, refusal(18, 0));
    let resolved = xmf::resolve(WORKED, &mut nodes, &mut items, 0);
    assert_eq!(resolved, refusal(19, 0));
    let mut short = vec![7; SHEET.len() - 1];
    let written = xmf::write_sheet(WORKED, &mut nodes, &mut items, &mut short);
    assert_eq!(written, refusal(22, 0));
    assert!(short.iter().all(|&byte| byte == 0));
}

/// The worked file with the title `Hello` in item row 0.
const GREETING: &[u8] = b"XMF_2.00\0\0\0\x02\0\0\0\x01\x3b\x01\0\x15\x3a\x26\x01\x05\0\0\x01\x20\0\x1d\x18\x01a\0\x06\0Hello\x01t\0\x03\x07\x11\x22\0\x03\0\x03\x06\0\0\0\x01\xaa\xbb";

#[test]
fn a_title_is_corrected() {
    let (mut nodes, mut items) = tables();
    let mut out = [7; 80];
    let length = xmf::correct_title(WORKED, &mut nodes, &mut items, 0, b"Hello", &mut out).unwrap();
    assert_eq!(&out[..length], GREETING);
    assert!(out[length..].iter().all(|&byte| byte == 0));
    // The tables hold the new file's rows.
    let (mut new_nodes, mut new_items) = tables();
    xmf::read_tree(GREETING, &mut new_nodes, &mut new_items).unwrap();
    assert_eq!((&nodes, &items), (&new_nodes, &new_items));
    // The same title again changes nothing, and the old one gives the old file back.
    let again = xmf::correct_title(GREETING, &mut nodes, &mut items, 0, b"Hello", &mut out);
    assert_eq!(&out[..again.unwrap()], GREETING);
    let back = xmf::correct_title(GREETING, &mut nodes, &mut items, 0, b"Hi", &mut out);
    assert_eq!(&out[..back.unwrap()], WORKED);

    for (file, row, room, number) in [
        (WORKED, 3, 80, 18),
        (DETACHED, 0, 80, 36),
        (WORKED, 1, 80, 37),
        (WORKED, 0, GREETING.len() - 1, 22),
    ] {
        let (mut nodes, mut items) = tables();
        let mut out = vec![7; room];
        let written = xmf::correct_title(file, &mut nodes, &mut items, row, b"Hello", &mut out);
        assert_eq!(written, refusal(number, 0));
        assert!(nodes.iter().chain(&items).all(|&word| word == 0));
        assert!(out.iter().all(|&byte| byte == 0));
    }
}

#[test]
fn a_header_is_mended() {
    let (mut nodes, mut items) = tables();
    let mut file = WORKED.to_vec();
    (file[16], file[20]) = (57, 60);
    let (mut copy, mut lines) = ([7; 60], [7; 40]);
    let mended = xmf::mend(&file, &mut nodes, &mut items, &mut copy, &mut lines).unwrap();
    assert_eq!(&copy[..mended.copy], WORKED);
    assert_eq!(
        &lines[..mended.lines],
        b"FileLength\t16\t57\t56\nTreeEnd\t20\t60\t55\n"
    );
    let behind = copy[mended.copy..].iter().chain(&lines[mended.lines..]);
    assert!(behind.copied().all(|byte| byte == 0));
    // The tables hold the mended file's rows.
    let (mut new_nodes, mut new_items) = tables();
    xmf::read_tree(WORKED, &mut new_nodes, &mut new_items).unwrap();
    assert_eq!((&nodes, &items), (&new_nodes, &new_items));
    // Mending again changes nothing and gives no line.
    let again = xmf::mend(WORKED, &mut nodes, &mut items, &mut copy, &mut []).unwrap();
    assert_eq!(&copy[..again.copy], WORKED);
    assert_eq!(again.lines, 0);

    for (file, room, space, number, place) in [
        (&file[..], 56, 36, 22, 0),
        (&file, 55, 37, 22, 0),
        (&file[..55], 0, 0, 5, 16),
        (&WORKED[..7], 0, 0, 1, 0),
    ] {
        let (mut nodes, mut items) = tables();
        let (mut copy, mut lines) = (vec![7; room], vec![7; space]);
        let mended = xmf::mend(file, &mut nodes, &mut items, &mut copy, &mut lines);
        assert_eq!(mended, refusal(number, place));
        assert!(nodes.iter().chain(&items).all(|&word| word == 0));
        assert!(copy.iter().chain(&lines).all(|&byte| byte == 0));
    }
}

/// The bytes of the worked file by kind.
const WORKED_KINDS: [u64; 9] = [21, 6, 17, 4, 2, 2, 2, 2, 0];
/// Those of the file with detached nodes.
const DETACHED_KINDS: [u64; 9] = [22, 21, 44, 28, 6, 7, 12, 25, 6];

#[test]
fn bytes_are_summed_over_a_thousand_files() {
    let (mut nodes, mut items) = tables();
    let mut totals = Totals::default();
    for number in 0..1000 {
        let counts = match number % 4 {
            0 => xmf::account(WORKED, &mut nodes, &mut items, &mut totals),
            3 => xmf::account(DETACHED, &mut nodes, &mut items, &mut totals),
            _ => {
                let counts = xmf::account(&WORKED[..55], &mut nodes, &mut items, &mut totals);
                assert_eq!(counts, refusal(5, 16));
                assert!(nodes.iter().chain(&items).all(|&word| word == 0));
                continue;
            }
        };
        let wanted = if number % 4 == 0 {
            WORKED_KINDS
        } else {
            DETACHED_KINDS
        };
        assert_eq!(counts, Ok(Kinds::from(wanted)));
    }
    let kinds = std::array::from_fn(|kind| 250 * (WORKED_KINDS[kind] + DETACHED_KINDS[kind]));
    let wanted = Totals {
        files: 1000,
        refused: 500,
        kinds: kinds.into(),
    };
    assert_eq!(totals, wanted);
    assert_eq!(
        totals.kinds.counts().iter().sum::<u64>(),
        250 * (WORKED.len() + DETACHED.len()) as u64
    );
    // The next one is refused, whatever it is, and the totals are kept.
    for file in [WORKED, &[]] {
        (nodes, items) = tables();
        let counts = xmf::account(file, &mut nodes, &mut items, &mut totals);
        assert_eq!(counts, refusal(32, 0));
        assert!(nodes.iter().chain(&items).all(|&word| word == 0));
        assert_eq!(totals, wanted);
    }
}

#[test]
fn totals_may_have_any_number_of_words() {
    let (mut nodes, mut items) = tables();
    for room in 0..14 {
        let mut totals = [7; 16];
        let mut answer = [7; ANSWER_WORDS];
        xmf::words::account(
            WORKED,
            &mut nodes,
            &mut items,
            &mut totals[..room],
            &mut answer,
        );
        assert_eq!(answer[2..11], WORKED_KINDS);
        let mut wanted = [7; 16];
        for (word, more) in wanted[..room.min(11)]
            .iter_mut()
            .zip([1, 0].iter().chain(&WORKED_KINDS))
        {
            *word += more;
        }
        assert_eq!(totals, wanted);
    }
    // A sum that would not fit stays at the greatest number.
    let mut totals = [u64::MAX - 3; 11];
    totals[0] = 999;
    xmf::words::account(WORKED, &mut nodes, &mut items, &mut totals, &mut []);
    assert_eq!(totals[..3], [1000, u64::MAX - 3, u64::MAX]);
    assert_eq!(
        totals[6..],
        [
            u64::MAX - 1,
            u64::MAX - 1,
            u64::MAX - 1,
            u64::MAX - 1,
            u64::MAX - 3
        ]
    );
}

#[test]
fn nothing_need_be_lent() {
    assert_eq!(xmf::read_tree(&[], &mut [], &mut []), refusal(1, 0));
    assert_eq!(xmf::read_tree(WORKED, &mut [], &mut []), refusal(10, 21));
    assert_eq!(
        xmf::write_sheet(&[], &mut [], &mut [], &mut []),
        refusal(1, 0)
    );
    let (mut nodes, mut items) = tables();
    xmf::words::judge(WORKED, &mut nodes, &mut items, &mut []);
    let written = xmf::write_sheet(WORKED, &mut nodes, &mut items, &mut []);
    assert_eq!(written, refusal(22, 0));
}

#[test]
fn an_answer_fits_its_buffer() {
    let (mut nodes, mut items) = tables();
    for room in 0..ANSWER_WORDS + 3 {
        let mut answer = [7; ANSWER_WORDS + 4];
        xmf::words::read_tree(WORKED, &mut nodes, &mut items, &mut answer[..room]);
        let mut wanted = [7; ANSWER_WORDS + 4];
        for (word, place) in wanted[..room].iter_mut().zip(0..) {
            *word = [0, 0, 200, 2, 3].get::<usize>(place).copied().unwrap_or(0);
        }
        assert_eq!(answer, wanted);
    }
}

/// Finds with a kind, a number and a name; gives the item row.
fn find_row(kind: u64, number: u64, name: &[u8]) -> u64 {
    let (mut nodes, mut items) = tables();
    let mut answer = [7; ANSWER_WORDS];
    // Safety: the pointers and lengths are those of slices that do not overlap.
    unsafe {
        c::xmf_find(
            WORKED.as_ptr(),
            WORKED.len(),
            nodes.as_mut_ptr(),
            nodes.len(),
            items.as_mut_ptr(),
            items.len(),
            1,
            kind,
            number,
            name.as_ptr(),
            name.len(),
            answer.as_mut_ptr(),
            answer.len(),
        );
    }
    assert_eq!(answer[..2], [0, 0]);
    answer[2]
}

#[test]
fn the_kind_chooses_number_or_name() {
    assert_eq!(find_row(0, 3, b"a"), 2);
    for kind in [1, 2, u64::MAX] {
        assert_eq!(find_row(kind, 3, b"a"), 0);
        assert_eq!(find_row(kind, 3, b"t"), 1);
    }
}
