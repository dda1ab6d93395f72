// Points the oracle's module tree at the original's files as they are, and at this package's driver in place of the oracle's.

#[path = "../../oracle/original/tree.rs"]
#[rustfmt::skip]
mod tree;

use std::path::PathBuf;
use std::{env, fs};

fn main() {
    let here = PathBuf::from(env::var("CARGO_MANIFEST_DIR").expect("cargo sets CARGO_MANIFEST_DIR"));
    // The tree looks for what it needs beside the folder of the build that asks for it.
    env::set_var("CARGO_MANIFEST_DIR", here.join("../../oracle/plain"));
    tree::write_tree(|name| tree::original(&format!("topological/{name}.rs")));

    let path = PathBuf::from(env::var("OUT_DIR").expect("cargo sets OUT_DIR")).join("tree.rs");
    let tree = fs::read_to_string(&path).expect("the tree");
    let parts: Vec<&str> = tree.split("original/driver.rs").collect();
    let &[before, after] = parts.as_slice() else { panic!("the tree names its driver once") };
    let folder = before.rfind('"').expect("a path in quotes") + 1;
    let driver = here.join("src/driver.rs");
    let own = format!("{}{}{after}", &before[..folder], driver.display());
    fs::write(&path, own).expect("OUT_DIR takes files");
    println!("cargo:rerun-if-changed={}", driver.display());
}
