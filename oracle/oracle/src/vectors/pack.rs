// Vectors as files: cases in data/, the files' names in args, answers in stdout.

use std::path::Path;
use std::{fmt, fs, io};

use super::form::text;
use super::{Answer, ByRule, Spreads, Summed, Vector};

/// No data file may be longer: a program reads 64 KiB at most.
const LONGEST: usize = 65_000;

#[derive(Default)]
pub struct File {
    pub name: String,
    pub cases: Vec<u8>,
    pub answers: String,
}

/// The files of some cases, each with its answer: a case that does not fit begins a new one.
pub fn files(kind: &str, cases: impl Iterator<Item = (Vec<u8>, String)>) -> Vec<File> {
    let mut files: Vec<File> = Vec::new();
    for (case, answer) in cases {
        if files.last().is_none_or(|file| file.cases.len() + case.len() > LONGEST) {
            let name = format!("{kind}-{}", files.len() + 1);
            files.push(File { name, ..File::default() });
        }
        if let Some(file) = files.last_mut() {
            file.cases.extend(case);
            file.answers += &answer;
        }
    }
    files
}

/// What the names of the files about holes begin with, whatever the call.
pub const HOLES: &str = "holes";

/// A case as a file has it, with its answer.
fn packed<C: Vector>(case: &C) -> (Vec<u8>, String) {
    (text(&case.words()).into_bytes(), case.answer().lines())
}

/// The files of cases, whose names begin with this and not with the cases' kind.
pub fn pack_as<C: Vector>(name: &str, cases: &[C]) -> Vec<File> {
    files(name, cases.iter().map(packed))
}

/// The files of the cases of one kind.
fn files_of<C: Vector>(kind: &str, cases: &[C]) -> Vec<File> {
    files(kind, cases.iter().filter(|case| case.kind() == kind).map(packed))
}

/// The files of all cases, the kinds in the order in which they first come.
pub fn pack<C: Vector>(cases: &[C]) -> Vec<File> {
    let mut kinds: Vec<&str> = Vec::new();
    for case in cases {
        if !kinds.contains(&case.kind()) {
            kinds.push(case.kind());
        }
    }
    kinds.into_iter().flat_map(|kind| files_of(kind, cases)).collect()
}

/// Writes files into a folder; gives the names and lengths in bytes of what was written.
pub fn write(folder: &Path, files: &[File]) -> io::Result<Vec<(String, usize)>> {
    fs::create_dir_all(folder.join("data"))?;
    let (mut names, mut answers, mut written) = (String::new(), String::new(), Vec::new());
    for file in files {
        assert!(file.cases.len() <= LONGEST, "{} is too long", file.name);
        fs::write(folder.join("data").join(&file.name), &file.cases)?;
        names += &format!("{}\n", file.name);
        answers += &format!("# {}\n{}", file.name, file.answers);
        written.push((file.name.clone(), file.cases.len()));
    }
    fs::write(folder.join("args"), names)?;
    fs::write(folder.join("stdout"), &answers)?;
    written.push(("stdout".to_string(), answers.len()));
    Ok(written)
}

/// The names and lengths in bytes of the files written, and what their cases hold.
pub struct Written<S> {
    pub files: Vec<(String, usize)>,
    pub summary: S,
}

impl<S: fmt::Display> fmt::Display for Written<S> {
    fn fmt(&self, f: &mut fmt::Formatter<'_>) -> fmt::Result {
        self.files.iter().try_for_each(|(name, bytes)| writeln!(f, "{name} {bytes} bytes"))?;
        self.summary.fmt(f)
    }
}

/// What cases hold, and what those by a spread rule do.
pub struct WithRules<S> {
    pub without: S,
    pub by_rule: S,
}

impl<S: fmt::Display> fmt::Display for WithRules<S> {
    fn fmt(&self, f: &mut fmt::Formatter<'_>) -> fmt::Result {
        self.without.fmt(f)?;
        write!(f, "by a spread rule:\n{}", self.by_rule)
    }
}

/// The files of all cases, those by a spread rule behind the others, and what they hold.
pub fn with_rules<C: Spreads, S: Summed<C>>(
    cases: &[C],
    by_rule: &[ByRule<C>],
) -> (Vec<File>, WithRules<S>) {
    let files = pack(cases).into_iter().chain(pack(by_rule)).collect();
    let inner: Vec<C> = by_rule.iter().map(|case| case.0.clone()).collect();
    (files, WithRules { without: S::of(cases), by_rule: S::of(&inner) })
}

/// What cases hold, and what those about holes do.
pub struct WithHoles<S, H> {
    pub without: S,
    pub holes: H,
}

impl<S: fmt::Display, H: fmt::Display> fmt::Display for WithHoles<S, H> {
    fn fmt(&self, f: &mut fmt::Formatter<'_>) -> fmt::Result {
        self.without.fmt(f)?;
        write!(f, "about holes:\n{}", self.holes)
    }
}

/// Writes all cases into a folder and says what was written.
pub fn write_cases<C: Vector, S: Summed<C>>(folder: &Path, cases: &[C]) -> io::Result<Written<S>> {
    Ok(Written { files: write(folder, &pack(cases))?, summary: S::of(cases) })
}
