// The commands: a comparison ends with a status that tells, and words that cannot be read are
// refused. What is compared is given to the comparisons, so that a wrong one can be.

use frame::{Frame, Stages};
use oracle::command::status;
use oracle::compare::{compare, Sides, SIDES};
use oracle::judge::{judge, Refusal};
use oracle::stages::Build;
use oracle::text::answer;
use oracle::words;
use std::process::{Command, Output, Stdio};

const FRAMES: u64 = 170;

#[test]
fn statuses() {
    let outcomes = [Ok(true), Ok(false), Err(String::new())];
    assert_eq!(outcomes.map(|outcome| status(&outcome)), [0, 1, 2]);
}

/// The stages with a hole more in every component.
fn spoiled(mut stages: Stages) -> Stages {
    stages.components.iter_mut().for_each(|component| component.holes += 1);
    stages
}

fn other_place(frame: &Frame) -> Option<Refusal> {
    judge(frame).map(|refusal| Refusal { place: refusal.place + 1, ..refusal })
}

fn nothing_beside(frame: &Frame) -> Option<Refusal> {
    judge(frame).map(|refusal| Refusal { beside: 0, ..refusal })
}

#[test]
fn a_wrong_side_is_told() {
    let wrong = [
        Sides { judge: other_place, ..SIDES },
        Sides { judge: nothing_beside, ..SIDES },
        Sides { plain: |frame| spoiled(plain::run(frame)), ..SIDES },
        Sides { fits: |frame| vec![-1.0; frame.half_edges()], ..SIDES },
        Sides { ruled: |frame| spoiled(ruled::run(frame)), ..SIDES },
        Sides { words: |frame| spoiled(words::run(frame)), ..SIDES },
    ];
    assert!(compare(&SIDES, FRAMES, 1).same());
    assert!(wrong.iter().all(|sides| !compare(sides, FRAMES, 1).same()));
}

fn oracle(words: &str) -> Output {
    let mut program = Command::new(env!("CARGO_BIN_EXE_oracle"));
    program.args(words.split_whitespace()).stdin(Stdio::null()).output().unwrap()
}

#[test]
fn words_that_are_read() {
    for words in ["help", "--help", "compare 34 1", "demand 70 1", "gap 100 1", "gridlabel plain"] {
        let said = oracle(words);
        assert_eq!((said.status.code(), said.stderr.len()), (Some(0), 0), "{words}");
        assert!(!said.stdout.is_empty());
    }
}

#[test]
fn frames_that_a_row_refuses() {
    for row in [3, 4, 5, 6, 7, 11, 12, 18] {
        for seed in 0..5 {
            let said = oracle(&format!("frames row{row} {seed} 1")).stdout;
            let heading = format!("# row{row}-{seed}-0\n");
            let text = said.strip_prefix(heading.as_bytes()).unwrap();
            assert!(answer(text, Build::Ruled).starts_with(&format!("refused {row} ")));
        }
    }
}

#[test]
fn no_word_is_refused_with_the_list() {
    let (none, help) = (oracle(""), oracle("help"));
    assert_eq!((none.status.code(), none.stdout.len()), (Some(2), 0));
    assert_eq!(none.stderr, help.stdout);
}

/// Counts and seeds that are none, words that nothing is called, words missing and too many.
const REFUSED: [&str; 30] = [
    "compare 1e6 1",
    "compare 1,000 1",
    "compare -1 1",
    "compare 0 1",
    "compare 34 x",
    "compare 34",
    "compare",
    "compare 34 1 1",
    "compare 18446744073709551616 1",
    "demand 1e6 1",
    "demand 7 1.0",
    "demand 7",
    "demand 7 1 7",
    "gap 1e6 1",
    "gap 100 1 x",
    "frames perfect 1 1e2",
    "frames perfect 1",
    "frames nothing 1 1",
    "frames row8 1 1",
    "frames row13 1 1",
    "label 1 x",
    "label 1 1 4096 1",
    "quads sheet 1 1",
    "vectors nothing x",
    "vectors numbers",
    "examples",
    "gridlabel both",
    "help compare",
    "--help compare",
    "nothing 1 2",
];

#[test]
fn words_that_are_refused() {
    for words in REFUSED {
        let said = oracle(words);
        let lines = String::from_utf8(said.stderr).unwrap().lines().count();
        let found = (said.status.code(), lines, said.stdout.len());
        assert_eq!(found, (Some(2), 1, 0), "{words}");
    }
}
