//! The samples and their padded copies, the cuts of these, all files that differ from one of them in
//! one byte, and two very long files.

use generate::cases::Kind;
use generate::damage::every_cut;
use generate::encode::LARGEST_NUMBER;
use generate::model::Field;
use generate::{samples, Case, Lent};

/// Makes a case of each such file and hands it to `compare`, up to the first error.
pub fn for_each<E>(mut compare: impl FnMut(&Case) -> Result<(), E>) -> Result<(), E> {
    let mut number = 0;
    let mut compare_file = |file: Vec<u8>| {
        number += 1;
        compare(&case(file, number))
    };
    for (_, sample) in samples::all().into_iter().chain(samples::padded()) {
        compare_file(sample.clone())?;
        for cut in every_cut(&sample) {
            compare_file(cut.to_vec())?;
        }
        let mut file = sample.clone();
        for place in 0..file.len() {
            for byte in 0..=u8::MAX {
                if byte != sample[place] {
                    file[place] = byte;
                    compare_file(file.clone())?;
                }
            }
            file[place] = sample[place];
        }
    }
    // The longest file there may be, and one byte more.
    for length in [LARGEST_NUMBER, LARGEST_NUMBER + 1] {
        let start = samples::worked();
        let mut file = vec![0; length];
        file[..start.len()].copy_from_slice(&start);
        compare_file(file)?;
    }
    Ok(())
}

/// A case of a file. Rows and fields take turns; the tables are large enough for each sample.
fn case(file: Vec<u8>, number: u64) -> Case {
    let field = match number % 6 {
        0 => Field::Standard(3),
        1 => Field::Standard(8),
        2 => Field::Standard(13),
        3 => Field::Custom(b"a".to_vec()),
        4 => Field::Custom(b"t".to_vec()),
        _ => Field::Custom(b"key".to_vec()),
    };
    Case {
        kind: Kind::WellFormed,
        verdict: None,
        refusal: None,
        file,
        lent: Lent {
            node_words: 10 * plain::node::WORDS,
            item_words: 40 * plain::item::WORDS,
            room: 2000,
            stale: number,
        },
        row: number % 7,
        field,
    }
}
