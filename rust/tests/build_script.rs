// What the build script does, run by itself in a folder whose tools/native-archive only says how it was called.

use std::fs;
use std::path::{Path, PathBuf};
use std::process::{Command, Output};

/// A package folder beside a tools/ folder, with the compiled build script.
struct Place {
    root: PathBuf,
}

impl Place {
    fn of(name: &str, tool: &str) -> Place {
        let root = Path::new(env!("CARGO_TARGET_TMPDIR")).join(name);
        let _ = fs::remove_dir_all(&root);
        for folder in ["rust/out", "tools", "crates/abi/src"] {
            fs::create_dir_all(root.join(folder)).expect("a folder");
        }
        fs::write(root.join("tools/native-archive"), tool).expect("the tool");
        let script = concat!(env!("CARGO_MANIFEST_DIR"), "/build.rs");
        let compiler = std::env::var_os("RUSTC").unwrap_or("rustc".into());
        let built = Command::new(compiler).args(["--edition", "2021", script, "-o"]).arg(root.join("script")).status();
        assert!(built.expect("rustc runs").success());
        Place { root }
    }

    /// The script's run for a target, with or without an archive named.
    fn run(&self, target: &str, archive: Option<&str>) -> Output {
        let mut script = Command::new(self.root.join("script"));
        script.current_dir(self.root.join("rust")).env("CARGO_MANIFEST_DIR", self.root.join("rust"));
        script.env("OUT_DIR", self.out()).env("TARGET", target).env("HOST", "of-no-account").env_remove("NGEUNSADOK_ARCHIVE");
        if let Some(archive) = archive {
            script.env("NGEUNSADOK_ARCHIVE", archive);
        }
        script.output().expect("the script runs")
    }

    fn out(&self) -> PathBuf {
        self.root.join("rust/out")
    }

    fn archive(&self) -> Option<String> {
        fs::read_to_string(self.out().join("libabi.a")).ok()
    }
}

/// Writes how it was called to the archive.
const TELLS: &str = "echo \"$1 $3\" >\"$2\"\n";

fn refused(output: Output, words: &[&str]) {
    let said = String::from_utf8_lossy(&output.stderr).into_owned();
    assert!(!output.status.success(), "{said}");
    assert!(words.iter().all(|&word| said.contains(word)), "{said}");
}

#[test]
fn the_target_is_cargos() {
    let place = Place::of("target", TELLS);
    for target in ["aarch64-unknown-linux-gnu", "x86_64-unknown-linux-gnu", "riscv64gc-unknown-linux-gnu"] {
        assert!(place.run(target, None).status.success());
        assert_eq!(place.archive(), Some(format!("abi {target}\n")));
    }
}

/// An empty name names no archive: one is made.
#[test]
fn an_empty_name() {
    let place = Place::of("empty", TELLS);
    assert!(place.run("any", Some("")).status.success());
    assert_eq!(place.archive().as_deref(), Some("abi any\n"));
}

#[test]
fn a_failed_tool_fails_the_build() {
    let place = Place::of("failed", "echo no archive for $3 >&2; exit 1\n");
    refused(place.run("sparc64-unknown-linux-gnu", None), &["no archive for sparc64", "native-archive abi failed"]);
}

#[test]
fn a_named_archive() {
    let place = Place::of("named", "exit 1\n");
    let given = place.root.join("given.a");
    fs::write(&given, "given").expect("an archive");
    let given = given.to_str().expect("a plain path");
    assert!(place.run("any", Some(given)).status.success());
    assert_eq!(place.archive().as_deref(), Some("given"));
    refused(place.run("any", Some("/no/such/archive.a")), &["NGEUNSADOK_ARCHIVE=/no/such/archive.a", "No such file"]);
}

/// Also where a file of that name is in the package's folder.
#[test]
fn a_relative_archive_is_refused_in_words() {
    let place = Place::of("relative", "exit 1\n");
    fs::write(place.root.join("rust/given.a"), "given").expect("an archive");
    refused(place.run("any", Some("given.a")), &["NGEUNSADOK_ARCHIVE=given.a is not a full path", "$PWD/given.a"]);
    assert_eq!(place.archive(), None);
}
