// Document 01's examples: the program's, and those of the labelling.

use oracle::examples::SQUARE as FRAME;
use oracle::quads_text::label_text;
use oracle::stages::Build;
use oracle::text::answer;

const FRAME_ANSWER: &str = "components 1\ncomponent 0 4 0\n0 0 0\n0 1 3\n1 0 1\n1 1 2\n";

fn label(quads: &str, least_quads: u32, least_corners: u32) -> String {
    label_text(quads, least_quads, least_corners, 4_096)
}

#[test]
fn the_program() {
    for build in [Build::Plain, Build::Ruled] {
        assert_eq!(answer(FRAME.as_bytes(), build), FRAME_ANSWER);
    }
}

#[test]
fn a_distance_equal_to_the_tolerance_is_spurious() {
    let quarter_turn = FRAME.replace("00000000 - 3FC90FDB", "3E800000 - 3FC90FDB");
    assert_eq!(answer(quarter_turn.as_bytes(), Build::Ruled), "components 0\n");
    let next_tolerance = quarter_turn.replace("P 3E800000", "P 3E800001");
    assert_eq!(answer(next_tolerance.as_bytes(), Build::Ruled), FRAME_ANSWER);
}

/// The smallest frame found on which the builds part, a near case: the diagonal lies 3F490FDB
/// from both axes by document 01's distance, 3F490FDC by the original's.
#[test]
fn a_near_case_parts_the_builds() {
    let on_the_edge = FRAME.replace("P 3E800000", "P 3F490FDC");
    assert_eq!(answer(on_the_edge.as_bytes(), Build::Ruled), "components 0\n");
    assert_eq!(answer(on_the_edge.as_bytes(), Build::Plain), FRAME_ANSWER);
}

#[test]
fn no_lines_but_p() {
    let p = FRAME.lines().next().unwrap().to_string() + "\n";
    assert_eq!(answer(p.as_bytes(), Build::Ruled), "components 0\n");
    let twin_in_digits = FRAME.replace("- - 3", "4294967295 - 3");
    assert_eq!(answer(twin_in_digits.as_bytes(), Build::Ruled), FRAME_ANSWER);
}

/// The twin's value is the third field of rows 7, 11 and 12 alone, 0 too.
#[test]
fn refusals_of_twins() {
    let said = |twins: &str| {
        let text = FRAME.replace("T 0 2 3 2 - -", &format!("T 0 2 3 {twins}"));
        answer(text.as_bytes(), Build::Ruled)
    };
    assert_eq!(said("2 - 6"), "refused 7 5 6\n");
    assert_eq!(said("2 - 4294967294"), "refused 7 5 4294967294\n");
    assert_eq!(said("2 - 2"), "refused 11 5 2\n");
    assert_eq!(said("2 - 0"), "refused 11 5 0\n");
    assert_eq!(said("2 - 5"), "refused 12 5 5\n");
    assert_eq!(said("2 - 4294967295"), FRAME_ANSWER);
    let repeated = FRAME.replace("T 0 2 3 2 - -", "T 0 2 2 2 - 5");
    assert_eq!(answer(repeated.as_bytes(), Build::Ruled), "refused 6 1\n");
}

/// Document 01's text has no spreads: by rule 2 no axis informs. Without an eighth field it is by
/// rule 1.
#[test]
fn the_rule_of_spreads() {
    let by = |text: &str, rule: &str| {
        let text = text.replacen('\n', &format!("{rule}\n"), 1);
        [Build::Plain, Build::Ruled].map(|build| answer(text.as_bytes(), build))
    };
    let both = |said: &str| [said.to_string(), said.to_string()];
    for (rule, said) in [("", FRAME_ANSWER), (" 1", FRAME_ANSWER), (" 2", "components 0\n")] {
        assert_eq!(by(FRAME, rule), both(said));
    }
    for rule in [" 0", " 3", " 4294967295"] {
        assert_eq!(by(FRAME, rule), both("refused 18 0\n"));
        assert_eq!(by(&FRAME.replace("P 3E800000", "P 7FC00000"), rule), both("refused 3 0\n"));
        assert_eq!(by(&FRAME.replace("C 41200000", "C 7FC00000"), rule), both("refused 18 0\n"));
    }
    let spoken = FRAME.replace(" -\nC", " 3F000000\nC").replace(" - 3FC", " 3F000000 3FC");
    assert_eq!(by(&spoken, " 2"), both("components 0\n"), "the last spread is missing");
    let spoken = spoken.replace(" -\nT 0 1", " 3F000000\nT 0 1");
    assert_eq!(by(&spoken, " 2"), both(FRAME_ANSWER));
}

#[test]
fn two_quads_side_by_side() {
    let expected = "components 1\ncomponent 0 6 0\n0 0 0\n0 1 3\n1 0 1\n1 1 2\n2 0 4\n2 1 5\n";
    assert_eq!(label("0 1 2 3\n1 4 5 2\n", 1, 4), expected);
}

#[test]
fn a_side_run_alike() {
    let expected = "components 1\ncomponent 0 4 0\n0 0 0\n0 1 3\n1 0 1\n1 1 2\n";
    assert_eq!(label("0 1 2 3\n1 2 5 4\n", 2, 4), expected);
    assert_eq!(label("0 1 2 3\n1 2 5 4\n", 3, 4), "components 0\n");
}

#[test]
fn three_round_a_corner() {
    assert_eq!(label("0 1 2 3\n0 3 4 5\n0 5 6 1\n", 0, 0), "components 0\n");
}

/// Document 01's list. By document 02 the place has nothing to its right and is no hole.
#[test]
fn a_place_claimed_twice() {
    let quads = "0 1 2 3\n0 3 4 5\n0 5 6 7\n0 7 8 9\n";
    let kept = label(quads, 4, 8);
    let lines: Vec<&str> = kept.lines().collect();
    assert_eq!(lines[..2], ["components 1", "component 0 8 0"]);
    assert!(lines.contains(&"0 0 6") && lines.contains(&"1 1 0"));
    let listed = |corner: &str| lines[2..].iter().any(|l| l.split(' ').nth(2) == Some(corner));
    assert!(!listed("1") && !listed("9"));
    assert_eq!(label(quads, 4, 9), "components 0\n");
    assert_eq!(label(quads, 5, 8), "components 0\n");
}

#[test]
fn decided_readings() {
    let shift = label("0 1 2 3\n0 3 4 5\n0 3 6 7\n", 1, 0);
    assert!(shift.contains("\n0 0 0\n"), "{shift}");
    let reached = label("0 1 2 3\n1 2 5 4\n5 2 6 7\n4 5 7 8\n", 4, 4);
    assert!(reached.starts_with("components 1\ncomponent 0 4 0\n"), "{reached}");
    let shared_corner = label("0 1 2 3\n0 4 5 6\n", 1, 4);
    assert!(shared_corner.starts_with("components 2\n"), "{shared_corner}");
    assert_eq!(shared_corner.lines().count(), 1 + 2 + 8);
}

#[test]
fn refusals_of_labelling() {
    assert_eq!(label_text("0 1 2 9\n", 1, 1, 9), "refused 5 3\n");
    assert_eq!(label_text("0 1 2 3\n4 5 6 4\n", 1, 1, 9), "refused 6 1\n");
    assert_eq!(label_text("0 1 2 3\n", 1, 1, 4_097), "refused 2 0\n");
    assert_eq!(label_text("0 1 2\n", 1, 1, 9), "bad 1\n");
}
