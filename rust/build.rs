// Links the archive of crate abi: the one that NGEUNSADOK_ARCHIVE names, else one that tools/native-archive proves and compiles for cargo's
// target, which is not always this machine.

use std::path::{Path, PathBuf};
use std::process::{exit, Command};
use std::{env, fs};

fn main() {
    let out = PathBuf::from(given("OUT_DIR"));
    let archive = out.join("libabi.a");
    println!("cargo:rerun-if-env-changed=NGEUNSADOK_ARCHIVE");
    // An empty one names none, as one that is not set.
    match env::var_os("NGEUNSADOK_ARCHIVE").filter(|named| !named.is_empty()) {
        Some(named) => take(Path::new(&named), &archive),
        None => make(&archive),
    }
    println!("cargo:rustc-link-search=native={}", out.display());
    println!("cargo:rustc-link-lib=static=abi");
    // Of the C library today's archive asks for memset alone; one that is named may ask for C's mathematics.
    println!("cargo:rustc-link-lib=m");
}

/// A variable that cargo sets for build scripts.
fn given(name: &str) -> String {
    env::var(name).unwrap_or_else(|why| refuse(&format!("{name}: {why}")))
}

fn refuse(why: &str) -> ! {
    eprintln!("ngeunsadok: {why}");
    exit(1)
}

fn take(named: &Path, archive: &Path) {
    if !named.is_absolute() {
        let named = named.display();
        refuse(&format!(
            "NGEUNSADOK_ARCHIVE={named} is not a full path. A build script is not told in which folder cargo was started: say \
             NGEUNSADOK_ARCHIVE=\"$PWD/{named}\"."
        ));
    }
    println!("cargo:rerun-if-changed={}", named.display());
    if let Err(why) = fs::copy(named, archive) {
        refuse(&format!("NGEUNSADOK_ARCHIVE={}: {why}", named.display()));
    }
}

fn make(archive: &Path) {
    let root = PathBuf::from(given("CARGO_MANIFEST_DIR")).join("..");
    let mut tool = Command::new("sh");
    tool.args(["tools/native-archive", "abi"]).arg(archive).arg(given("TARGET")).current_dir(&root);
    match tool.status() {
        Ok(status) if status.success() => (),
        Ok(_) => refuse("tools/native-archive abi failed; NGEUNSADOK_ARCHIVE may name an archive that is there already"),
        Err(why) => refuse(&format!("sh: {why}")),
    }
    let tools = ["native-archive", "signatures.awk", "header.awk"].map(|tool| format!("tools/{tool}"));
    for part in tools.iter().map(String::as_str).chain(["include/ngeunsadok.h", "crates.txt"]) {
        println!("cargo:rerun-if-changed={}", root.join(part).display());
    }
    for entry in fs::read_dir(root.join("crates")).expect("the crates") {
        println!("cargo:rerun-if-changed={}", entry.expect("a crate").path().join("src").display());
    }
}
