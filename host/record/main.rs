//! Writes a fixed sample of the Rust's answers, which tests/replay.c holds ours against.
//!
//! usage: record FOLDER
//!
//! It calls the oracle alone, and for what the oracle has not, our readings of docs/FORMAT.md: for mend,
//! for the writer, and for bytes beside a count that is not theirs (other_count). The folder `programs` in it
//! has what the programs, and host/example, are run on: NAME.kw, what report prints of it, what scrub
//! writes, and its line. Otherwise one file for each of our crates, one case a line: function,
//! arguments, `->`, answer. Numbers are decimal and bytes are hex; `-` stands for no bytes, `00*600` for
//! bytes repeated, `#1024` for the directory entries of kinds 0 to 1023 that are 0 otherwise, `~160` for
//! 160 bytes of a pattern (`pattern` in writer.rs), and `+` joins such parts. A row is
//! `KIND.FLAGS.WORDS`, with `*9` nine such of ascending kinds. An answer that may be None is `1 VALUE`
//! or zeros; where an image is lent to be written, it ends with the bytes that moved, `PLACE=VALUE`, or
//! `-`; where an output is, with all of its bytes, or `=` if each is as it was.

#[path = "../compare/answers.rs"]
mod answers;
mod borrowed;
mod crc;
mod ecc;
mod image;
#[path = "../compare/images.rs"]
#[allow(dead_code)] // the comparison uses the rest
mod images;
#[path = "../compare/inputs.rs"]
#[allow(dead_code)]
mod inputs;
mod layout;
mod mend;
#[path = "../compare/mending.rs"]
mod mending;
#[path = "../compare/model.rs"]
#[allow(dead_code)]
mod model;
mod other_count;
#[path = "../compare/plan.rs"]
mod plan;
mod programs;
mod scalar;
mod scan;
mod scrub;
mod tables;
mod view;
mod writer;

use std::{fs, path::Path};

fn main() {
    let folder = std::env::args().nth(1).expect("usage: record FOLDER");
    write(&folder, "scalar", scalar::lines());
    write(&folder, "crc", crc::lines());
    write(&folder, "layout", layout::lines());
    write(&folder, "ecc", ecc::lines());
    write(&folder, "view", view::lines());
    write(&folder, "tables", tables::lines());
    write_under(BORROWED, &folder, "borrowed", borrowed::lines());
    write(&folder, "scan", scan::lines());
    write(&folder, "scrub", scrub::lines());
    write_under(MENDED, &folder, "mend", mend::lines());
    write_under(OTHER_COUNT, &folder, "other_count", other_count::lines());
    write_under(WRITTEN, &folder, "writer", writer::lines());
    let programs = Path::new(&folder).join("programs");
    fs::create_dir_all(&programs).expect("the folder is made");
    for case in programs::cases() {
        let put = |kind: &str, bytes: &[u8]| {
            let path = programs.join(case.name).with_extension(kind);
            fs::write(path, bytes).expect("the file is written");
        };
        put("kw", &case.input);
        put("report", case.report.as_bytes());
        put("scrub", &case.image);
        put("line", case.line.as_bytes());
    }
}

const MADE: &str =
    "# Answers of the unchanged Rust, made by 'make record' (host/record), not by hand.";
const MENDED: &str = "# The Rust has no mend: answers of our own reading of docs/FORMAT.md, which asks \
    the Rust for parse and\n# decoding (host/compare/mending.rs), made by 'make record', not by hand.";
const BORROWED: &str =
    "# Answers of the unchanged Rust, made by 'make record' (host/record), not by hand. \
    Of bytes that it\n# makes no table of: no records, empty, stride 0 (docs/DIFFERENCES.md).";
const OTHER_COUNT: &str = "# Bytes beside a count that is not theirs, which the Rust can't be asked: answers of \
    our own reading of\n# docs/FORMAT.md, which asks the Rust for decoding (host/compare/model.rs), made by \
    'make record', not by\n# hand.";
const WRITTEN: &str = "# The Rust has no such writer: answers of our own reading of docs/FORMAT.md, which \
    asks the Rust for\n# checksums and check bytes (host/compare/plan.rs), made by 'make record', not by hand.";

fn write(folder: &str, name: &str, lines: Vec<String>) {
    write_under(MADE, folder, name, lines);
}

fn write_under(head: &str, folder: &str, name: &str, lines: Vec<String>) {
    let path = Path::new(folder).join(name).with_extension("txt");
    fs::write(&path, format!("{head}\n{}\n", lines.join("\n"))).expect("the file is written");
}

/// The two numbers that stand for an answer that may be None.
fn pair(answer: Option<u64>) -> String {
    answer.map_or("0 0".into(), |value| format!("1 {value}"))
}

/// A byte argument as the sample writes it.
fn text(bytes: &[u8]) -> String {
    if bytes.is_empty() {
        "-".into()
    } else {
        inputs::hex(bytes)
    }
}
