// What the crates have stored from the oracle is what it makes.

use oracle::stages::Build;
use oracle::text::answer;
use oracle::vectors::KINDS;
use std::collections::BTreeMap;
use std::path::{Path, PathBuf};
use std::{env, fs, process};

fn crates() -> PathBuf {
    Path::new(env!("CARGO_MANIFEST_DIR")).join("../../crates")
}

/// The bytes of args, of stdout and of every file of data, by their paths in a folder.
fn files(folder: &Path) -> BTreeMap<PathBuf, Vec<u8>> {
    let data = fs::read_dir(folder.join("data")).unwrap();
    let data = data.map(|file| Path::new("data").join(file.unwrap().file_name()));
    let names = data.chain(["args", "stdout"].map(PathBuf::from));
    names.map(|name| (name.clone(), fs::read(folder.join(name)).unwrap())).collect()
}

#[test]
fn the_vectors() {
    for (kind, write) in KINDS {
        let folder = env::temp_dir().join(format!("stored-{kind}-{}", process::id()));
        write(&folder).unwrap();
        let (made, stored) = (files(&folder), files(&crates().join(format!("replay_{kind}"))));
        fs::remove_dir_all(folder).unwrap();
        assert!(made.keys().eq(stored.keys()), "{kind}: {:?}", made.keys());
        let differ: Vec<_> = made.keys().filter(|name| made[*name] != stored[*name]).collect();
        assert!(differ.is_empty(), "{kind}: {differ:?}");
    }
}

/// No crate replays anything else.
#[test]
fn the_crates() {
    let names = fs::read_dir(crates()).unwrap().map(|entry| entry.unwrap().file_name());
    let mut replayed: Vec<String> =
        names.filter_map(|name| name.to_str()?.strip_prefix("replay_").map(String::from)).collect();
    let mut kinds = KINDS.map(|(name, _)| name);
    replayed.sort();
    kinds.sort();
    assert_eq!(replayed, kinds);
}

/// The text that the program is run on under the gate, and what it must print.
#[test]
fn the_program() {
    let file = |name: &str| fs::read(crates().join("gridlabel").join(name)).unwrap();
    assert_eq!(answer(&file("stdin"), Build::Ruled).into_bytes(), file("stdout"));
}
