// What the tests of the vectors' files share.

use std::path::Path;
use std::{env, fs, io, process};

/// Every word of a data file is eight digits and one separator; lines are whole cases.
fn check_data(text: &str) {
    assert!(text.len() <= 65_000 && text.len().is_multiple_of(9));
    for line in text.split_inclusive('\n') {
        let word = |bytes: &[u8]| bytes.iter().all(|b| b"0123456789ABCDEF".contains(b));
        let (last, others) = line.as_bytes().split_last().unwrap();
        assert_eq!(*last, b'\n');
        assert!(others.split(|&b| b == b' ').all(|w| w.len() == 8 && word(w)));
    }
}

/// The lines of all data files that are written, and how many lines their answers have; the
/// answers of each file stand under its name.
pub fn read_back<W>(
    kind: &str,
    write: impl FnOnce(&Path) -> io::Result<W>,
) -> (Vec<String>, usize) {
    let folder = env::temp_dir().join(format!("{kind}-vectors-{}", process::id()));
    write(&folder).unwrap();
    let names = fs::read_to_string(folder.join("args")).unwrap();
    let mut lines = Vec::new();
    for name in names.lines() {
        let text = fs::read_to_string(folder.join("data").join(name)).unwrap();
        check_data(&text);
        lines.extend(text.lines().map(String::from));
    }
    let answers = fs::read_to_string(folder.join("stdout")).unwrap();
    let headings: Vec<&str> = answers.lines().filter_map(|l| l.strip_prefix("# ")).collect();
    assert_eq!(headings, names.lines().collect::<Vec<_>>());
    fs::remove_dir_all(folder).unwrap();
    (lines, answers.lines().count() - headings.len())
}

/// One list of a case's words: length, given, fill, words.
fn take_list(words: &mut &[u32]) -> Vec<u32> {
    let (length, given, fill) = (words[0] as usize, words[1] as usize, words[2]);
    let mut list = words[3..3 + given].to_vec();
    list.resize(length, fill);
    *words = &words[3 + given..];
    list
}

/// The numbers and the lists that a line of a data file says.
pub fn parts<const NUMBERS: usize, const LISTS: usize>(
    line: &str,
) -> ([u32; NUMBERS], [Vec<u32>; LISTS]) {
    let words: Vec<u32> = line.split(' ').map(|w| u32::from_str_radix(w, 16).unwrap()).collect();
    let (numbers, mut rest) = words.split_first_chunk().unwrap();
    let lists = std::array::from_fn(|_| take_list(&mut rest));
    assert!(rest.is_empty());
    (*numbers, lists)
}
