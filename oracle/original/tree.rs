// Shared by the two build scripts: finds the original's files and writes the module
// tree that compiles them. Nothing of the original is kept here, only file names.

use std::path::{Path, PathBuf};
use std::{env, fs};

/// The stages that are compiled, by file name without ending.
pub const STAGES: [&str; 6] = ["axis", "classify", "quads", "filter", "walk", "delaunay"];

pub fn manifest_dir() -> PathBuf {
    PathBuf::from(env::var("CARGO_MANIFEST_DIR").expect("cargo sets CARGO_MANIFEST_DIR"))
}

/// The docs/src folder: ORACLE_SRC, or ../shared/docs/src; both from the repository's root.
fn source_dir() -> PathBuf {
    println!("cargo:rerun-if-env-changed=ORACLE_SRC");
    let root = manifest_dir().join("../..");
    let given = env::var("ORACLE_SRC").unwrap_or_else(|_| "../shared/docs/src".to_string());
    let dir = root.join(given).join("crates/projective-grid/src");
    dir.canonicalize()
        .unwrap_or_else(|e| panic!("no original at {}: {e}; set ORACLE_SRC", dir.display()))
}

/// The path of one of the original's files; a change to it builds again.
pub fn original(file: &str) -> PathBuf {
    let path = source_dir().join(file);
    println!("cargo:rerun-if-changed={}", path.display());
    path
}

/// The text of a module that compiles a file.
pub fn module(path: &Path, name: &str, visible: &str) -> String {
    format!("#[path = {:?}]\n{visible}mod {name};\n", path.to_str().expect("a plain path"))
}

/// Writes OUT_DIR/tree.rs. `stage` gives the file to compile for each stage.
pub fn write_tree(stage: impl Fn(&str) -> PathBuf) {
    let here =
        manifest_dir().join("../original").canonicalize().expect("the folder beside this crate");
    let mut text = module(&here.join("stand_ins/feature.rs"), "feature", "pub ");
    text += &module(&here.join("stand_ins/lattice.rs"), "lattice", "pub ");
    text += "#[allow(dead_code)]\npub mod cluster {\n";
    text += &module(&original("cluster/circular.rs"), "circular", "");
    text += "pub use circular::angular_dist_pi;\n}\n";
    text += "#[allow(dead_code, unused_imports)]\npub mod topological {\n";
    for name in STAGES {
        text += &module(&stage(name), name, "pub(crate) ");
    }
    text += &module(&here.join("driver.rs"), "driver", "pub ");
    text += "}\n";
    let out = PathBuf::from(env::var("OUT_DIR").expect("cargo sets OUT_DIR"));
    fs::write(out.join("tree.rs"), text).expect("OUT_DIR takes files");
    for name in ["driver.rs", "tree.rs", "stand_ins/feature.rs", "stand_ins/lattice.rs"] {
        println!("cargo:rerun-if-changed={}", here.join(name).display());
    }
}
