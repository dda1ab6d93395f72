// Each kind of bad line, at the line it must be seen on.

use oracle::generate::bad_text::{spoil, WAYS};
use oracle::generate::maker;
use oracle::random::Random;
use oracle::stages::Build;
use oracle::text::{answer, fits, read, write};

fn some_text(random: &mut Random) -> String {
    loop {
        let frame = maker("warped").unwrap()(60, random);
        if fits(&frame) {
            return write(&frame);
        }
    }
}

#[test]
fn every_way() {
    for i in 0..20 * WAYS.len() {
        let mut random = Random::part(11, i as u64);
        let good = some_text(&mut random);
        assert!(read(good.as_bytes()).is_ok());
        let way = WAYS[i % WAYS.len()];
        let (bad, line) = spoil(way, &good, &mut random);
        assert_eq!(answer(&bad, Build::Ruled), format!("bad {line}\n"), "{way}, text {i}");
    }
}

#[test]
fn written_and_read_again() {
    let mut random = Random::new(5);
    let text = some_text(&mut random);
    assert_eq!(write(&read(text.as_bytes()).unwrap()), text);
    let by = |rule: &str| text.replacen('\n', &format!("{rule}\n"), 1);
    let again = |rule: &str| write(&read(by(rule).as_bytes()).unwrap());
    assert_eq!([again(" 1"), again(" 2"), again(" 4294967295")], ["", " 2", " 4294967295"].map(by));
}

const P: &str = "P 3E800000 3FC00000 3F000000 40000000 3F800000 1 4\n";
const C: &str = "C 00000000 00000000 7FC00000 - 3FC90FDB FFFFFFFF\n";

#[test]
fn by_hand() {
    let bad = |text: &str, line: usize| {
        assert_eq!(answer(text.as_bytes(), Build::Ruled), format!("bad {line}\n"), "{text:?}");
    };
    bad("", 1);
    bad("\n", 1);
    bad(&format!("{P}\n"), 2);
    bad(&format!("{P}{C}x"), 3);
    bad(&format!("{P}{C}{P}"), 3);
    bad(&format!("{P}{}", C.repeat(129)), 130);
    bad(&format!("{P}T 0 1 2 - - -\n{C}"), 3);
    bad(&format!("{P}T 0 1 2 - -\n"), 2);
    bad(&format!("{P}T 0 1 - - - -\n"), 2);
    bad(&format!("{P}C 00000000 00000000 - - 00000000 -\n"), 2);
    for rule in ["", "01", "-", "+1", "4294967296", "A", "1 ", " 1", "1 1"] {
        bad(&P.replace('\n', &format!(" {rule}\n")), 1);
    }
    bad(&(P.replace('\n', " 3\n") + C + "x"), 3);
}

#[test]
fn not_bad() {
    let is = |text: &str, said: &str| assert_eq!(answer(text.as_bytes(), Build::Ruled), said);
    is(&format!("{P}{}", C.repeat(128)), "components 0\n");
    is(&format!("{P}T 0 1 2 - - -\n"), "refused 5 0\n");
    is(&format!("{P}{}", "T 0 1 2 - - -\n".repeat(256)), "refused 5 0\n");
    is(&P.replace("3E800000", "FFFFFFFF"), "refused 3 0\n");
    is(&P.replace('\n', " 2\n"), "components 0\n");
    is(&P.replace('\n', " 4294967295\n"), "refused 18 0\n");
}
