// The text vectors: what they must contain, and the files.

use oracle::stages::Build;
use oracle::text::answer;
use oracle::vectors::texts::{text_groups, write_texts, Summary};
use std::{env, fs, process};

fn texts() -> Vec<Vec<u8>> {
    text_groups().into_iter().flat_map(|group| group.texts).collect()
}

#[test]
fn every_answer() {
    let summary = Summary::of(&text_groups());
    assert!(summary.texts() >= 3_000 && summary.bad >= 2_000 && summary.answered >= 300);
    assert!(summary.refused.keys().copied().eq([3, 4, 5, 6, 7, 11, 12, 18]));
    assert!(summary.refused.values().all(|&count| count >= 12));
    assert!(summary.longest[0] <= 65_000);
}

/// The texts of a data file: eight digits, a line feed, so many bytes, a line feed.
fn unpacked(mut file: &[u8]) -> Vec<Vec<u8>> {
    let mut texts = Vec::new();
    while !file.is_empty() {
        let digits = std::str::from_utf8(&file[..8]).unwrap();
        let length = usize::from_str_radix(digits, 16).unwrap();
        assert_eq!((file[8], file[9 + length]), (b'\n', b'\n'));
        texts.push(file[9..9 + length].to_vec());
        file = &file[10 + length..];
    }
    texts
}

#[test]
fn files() {
    let folder = env::temp_dir().join(format!("text-vectors-{}", process::id()));
    write_texts(&folder).unwrap();
    let names = fs::read_to_string(folder.join("args")).unwrap();
    let (mut read, mut answers) = (Vec::new(), String::new());
    for name in names.lines() {
        let file = fs::read(folder.join("data").join(name)).unwrap();
        assert!(file.len() <= 65_000);
        let texts = unpacked(&file);
        answers += &format!("# {name}\n");
        answers.extend(texts.iter().map(|text| answer(text, Build::Ruled)));
        read.extend(texts);
    }
    assert_eq!(read, texts());
    assert_eq!(fs::read_to_string(folder.join("stdout")).unwrap(), answers);
    fs::remove_dir_all(folder).unwrap();
}
