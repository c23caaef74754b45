//! The stored traces: the model says of each what is stored beside it, and each is the same text again when it is written from its bytes.

use std::fs;
use std::path::{Path, PathBuf};
use traces::text::{to_bytes, to_text};
use traces::verdict;

fn stored() -> Vec<PathBuf> {
    let folder = Path::new(env!("CARGO_MANIFEST_DIR"));
    let files = fs::read_dir(folder).unwrap().map(|file| file.unwrap().path());
    files.filter(|path| path.extension().is_some_and(|end| end == "txt")).collect()
}

fn bytes_of(path: &Path) -> Vec<u8> {
    to_bytes(&fs::read_to_string(path).unwrap()).unwrap_or_else(|what| panic!("{}: {what}", path.display()))
}

#[test]
fn the_model_says_what_is_stored() {
    assert!(stored().len() > 10);
    for path in stored() {
        let line = fs::read_to_string(path.with_extension("verdict")).unwrap();
        assert_eq!(format!("{}\n", verdict(&bytes_of(&path))), line, "{}", path.display());
    }
}

#[test]
fn a_text_written_from_bytes_gives_the_bytes() {
    for path in stored() {
        let bytes = bytes_of(&path);
        assert_eq!(to_bytes(&to_text(&bytes)).unwrap(), bytes, "{}", path.display());
    }
}

#[test]
fn a_line_is_written_as_it_is_read() {
    let lines = "start 1324 2048 4 8 8 4 4 4 = 0\nnotify 257 7 \"a\\\"b\\\\c\\x00 \" = 0\nnotify 257 7 long 253 = 1\n\
        receive 18446744073709551615 15 134217727 -1 = 6 0 0 0 0\nnext = 6 0 0 -1\nshow = \"\"\nspawn 18446744073709551615 = 1 0\n\
        bus 2 1 0 2147483647 = 0 0\npublish 0 \"21.5\" = 0\npublish 0 long 253 = 1\nread 0 252 = 0 \"21.5\"\nread 0 3 = 1 \"\"\n\
        raw 02 00 01 00\nraw 00\n";
    assert_eq!(to_text(&to_bytes(lines).unwrap()), lines);
}

#[test]
fn an_error_names_its_line() {
    for (line, what) in [
        ("spwan 1 = 0 256", "spwan is no call"),
        ("spawn 1 0 256", "= is missing"),
        ("spawn one = 0 256", "\"one\" is no number"),
        ("spawn 1 = 0", "the line is too short"),
        ("yield = 0 0", "the answer is too long"),
        ("notify 257 7 3 = 0", "a payload is missing"),
        ("show = \"abc", "a quote is not closed"),
        ("read 0 252 = 5", "the line is too short"),
        ("raw 100", "\"100\" is no byte"),
        ("less 1", "there are fewer bytes than that"),
    ] {
        let told = to_bytes(&format!("# a comment\n{line}\n")).unwrap_err();
        assert!(told.starts_with("line 2: ") && told.contains(what), "{told}");
    }
}
