//! Streams with what is due of each: those of Go's encoder, in the folders that GOB_STREAMS names, and what
//! tools/cases.py prints, in the file that CASES names.

mod common;

use common::{bytes_of, definitions, shown};
use gob::{Limits, Options};
use std::path::{Path, PathBuf};
use std::{env, fs};

const SIZES: [usize; 6] = [1, 2, 3, 7, 64, 65536];

/// The paths of the streams in the folders that GOB_STREAMS names.
fn streams() -> Vec<PathBuf> {
    let folders = env::var_os("GOB_STREAMS").expect("GOB_STREAMS names folders of streams");
    let entries = env::split_paths(&folders).flat_map(|folder| fs::read_dir(folder).unwrap());
    entries.map(|entry| entry.unwrap().path()).filter(|path| path.extension().map_or(false, |it| it == "gob")).collect()
}

/// The lines of a file that begin so; none where there is no file.
fn lines(path: &Path, front: &str) -> String {
    let text = fs::read_to_string(path).unwrap_or_default();
    kept(&text, |line| line.starts_with(front))
}

fn kept(text: &str, is: impl Fn(&str) -> bool) -> String {
    text.lines().filter(|line| is(line)).map(|line| format!("{line}\n")).collect()
}

fn id_of(definition: &str) -> u32 {
    definition["{\"define\":".len()..].split(',').next().unwrap().parse().unwrap()
}

#[test]
fn streams_of_go_give_the_lines_that_are_due() {
    let mut count = 0;
    for path in streams() {
        let bytes = fs::read(&path).unwrap();
        // (the lines of what is refused by the documented format alone end there)
        let exact = path.with_extension("fault").exists();
        let options = Options { exact, ..Options::default() };
        let due = lines(&path.with_extension("lines"), "{\"type\"") + &lines(&path.with_extension("fault"), "gob: ");
        for size in SIZES {
            assert_eq!(shown(&bytes, size, options), due, "{} in pieces of {size}", path.display());
        }
        if !exact {
            let text = lines(&path.with_extension("lines"), "{\"define\"");
            let mut due: Vec<_> = text.lines().collect();
            due.sort_by_key(|line| id_of(line));
            assert_eq!(definitions(&bytes).lines().collect::<Vec<_>>(), due, "{}", path.display());
        }
        count += 1;
    }
    assert!(count > 40, "{count} streams");
}

#[test]
fn rows_and_damaged_streams_give_what_is_due() {
    let text = fs::read_to_string(env::var_os("CASES").expect("CASES names a file of tools/cases.py")).unwrap();
    let mut count = 0;
    for case in text.split_terminator("\n\n") {
        let (head, due) = case.split_once('\n').unwrap_or((case, ""));
        let words: Vec<_> = head.split(' ').collect();
        let limit = |at: usize| words[at].parse().unwrap();
        let limits = Limits { item: limit(1), depth: limit(2), types: limit(3), stream: limit(4) };
        let options = Options { limits, exact: words[0] == "exact" };
        let due = kept(due, |line| !line.starts_with("{\"define\""));
        assert_eq!(shown(&bytes_of(words[5]), SIZES[count % SIZES.len()], options), due, "{head}");
        count += 1;
    }
    assert!(count > 100, "{count} streams");
}
