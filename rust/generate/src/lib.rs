//! Makes XMF files of many shapes, well-formed and damaged.
//!
//! Everything is fixed by a seed and a case number: [`case`] makes a file with what is lent and
//! what is asked, [`pair`] makes two files that differ at private places only, [`large_file`] and
//! [`large_resource`] make the largest files, [`folders_file`] makes files of growing size,
//! [`texts::text`] makes a text to be converted, [`sheets::sheet`] makes a sheet to be moved, [`tags::tag`] makes an ID3 tag,
//! [`shelves::run`] makes a run of calls on a shelf,
//! [`titles::title`] and [`titles::folders_title`] make files whose title is to be corrected,
//! [`mends::mend`] makes a file whose header is to be mended,
//! [`descriptions::description`] makes a file with a content description, and [`timed::all`] makes the
//! files that are timed. The modules hold the parts they are
//! made of.

pub mod cases;
pub mod damage;
pub mod descriptions;
pub mod encode;
pub mod mends;
pub mod mobile;
pub mod model;
pub mod random;
pub mod samples;
pub mod shapes;
pub mod sheets;
pub mod shelves;
pub mod tags;
pub mod texts;
pub mod timed;
pub mod titles;

pub use cases::{case, folders_file, large_file, large_resource, pair, Case, Lent, Pair};
