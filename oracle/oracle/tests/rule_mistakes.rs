// Mistakes in the spread rule: each gives another answer to some case of each call, and to some
// text, where these can tell it, and to none where they cannot.

mod common {
    pub mod spreads;
}

use common::spreads::{
    before, informative, number, number_informs, rule, texts, vectors, whole, Rules, Slot, RIGHT,
};
use oracle::judge::Refusal;

/// By rule 2 something else, by rule 1 as it should be.
fn by_2(slot: &Slot, other: impl Fn(&Slot) -> bool) -> bool {
    if slot.rule == 2 {
        other(slot)
    } else {
        informative(slot)
    }
}

/// Row 18 tried before a row that comes before it.
fn ahead<const ROW: u32>(other: &Refusal) -> bool {
    before(other) && other.row != ROW
}

/// Row 18 tried behind a row that comes behind it.
fn behind<const ROW: u32>(other: &Refusal) -> bool {
    before(other) || other.row == ROW
}

/// The lines of lists of which the first is all zero.
fn first_zeroed(lists: &str) -> String {
    let Some((first, others)) = lists.split_once('\n') else {
        return lists.to_string();
    };
    let counts = first.split_whitespace().map(|run| run.split_once('*').unwrap().0);
    let sum: usize = counts.map(|count| count.parse::<usize>().unwrap()).sum();
    let zeros = if sum == 0 { String::new() } else { format!("{sum}*0") };
    format!("{zeros}\n{others}")
}

/// Reads also what a change makes a decimal of.
fn read_as(fields: &[&str], change: impl Fn(&str) -> String) -> Option<u32> {
    match fields {
        [field] => whole(field).or_else(|| whole(&change(field))),
        _ => number(fields),
    }
}

fn without(start: char, field: &str) -> String {
    field.strip_prefix(start).unwrap_or(field).to_string()
}

/// A decimal that is too great, as another number.
fn too_great(field: &str, other: fn(u64) -> u32) -> String {
    let number = field.parse().ok().filter(|number: &u64| number.to_string() == field);
    number.map_or(field.to_string(), |number| other(number).to_string())
}

/// A mistake's name, the letters of the kinds that tell it, and what makes it.
type Mistake = (&'static str, &'static str, fn(&mut Rules));

/// In what is informative.
const OF_SLOTS: [Mistake; 11] = [
    ("by 2 a missing spread informs", "acft", |r| {
        r.informative = |s| by_2(s, |s| s.mark == 0 || number_informs(s));
    }),
    ("by 1 a missing spread does not inform", "acft", |r| {
        r.informative = |s| s.mark != 0 && number_informs(s);
    }),
    ("the rules exchanged", "acft", |r| r.rule = |number| rule(number).map(|rule| 3 - rule)),
    ("by 2 no spread informs", "acft", |r| r.informative = |s| by_2(s, |_| false)),
    ("by 2 the limit not looked at", "acft", |r| {
        r.informative = |s| by_2(s, |s| s.mark != 0 && s.spread.is_finite());
    }),
    ("by 2 a spread at the limit informs", "acft", |r| {
        r.informative = |s| by_2(s, |s| s.mark != 0 && s.spread.is_finite() && s.spread <= s.limit);
    }),
    ("by 2 a spread that is not finite informs", "acft", |r| {
        r.informative = |s| by_2(s, |s| s.mark != 0 && s.spread < s.limit);
    }),
    ("by 2 slot 0 alone looked at", "acft", |r| {
        r.informative = |s| by_2(s, |s| informative(s) || s.mark == 0 && s.slot == 1);
    }),
    ("by 2 slot 1 alone looked at", "acft", |r| {
        r.informative = |s| by_2(s, |s| informative(s) || s.mark == 0 && s.slot == 0);
    }),
    ("by 2 the number behind the mark read", "acft", |r| {
        r.informative = |s| by_2(s, number_informs);
    }),
    ("by 2 a mark above 1 taken for missing", "acf", |r| {
        r.informative = |s| by_2(s, |s| s.mark == 1 && number_informs(s));
    }),
];

/// In which rule a number says.
const OF_NUMBERS: [Mistake; 16] = [
    ("0 taken for 1", "acft", |r| r.rule = |number| rule(number.max(1))),
    ("0 taken for 2", "acft", |r| r.rule = |n| rule(if n == 0 { 2 } else { n })),
    ("3 taken for 1", "acft", |r| r.rule = |n| rule(if n == 3 { 1 } else { n })),
    ("3 taken for 2", "acft", |r| r.rule = |n| rule(if n == 3 { 2 } else { n })),
    ("the greatest number taken for 1", "acft", |r| {
        r.rule = |n| rule(if n == u32::MAX { 1 } else { n });
    }),
    ("all numbers from 2 on taken for 2", "acft", |r| r.rule = |number| rule(number.min(2))),
    ("all numbers but 2 taken for 1", "acft", |r| r.rule = |n| Some(1 + (n == 2) as u32)),
    ("all numbers but 1 taken for 2", "acft", |r| r.rule = |n| Some(2 - (n == 1) as u32)),
    ("the lowest bit", "acft", |r| r.rule = |number| Some(2 - number % 2)),
    ("the lowest two bits", "acft", |r| r.rule = |number| rule(number % 4)),
    ("the lowest byte", "acft", |r| r.rule = |number| rule(number % 256)),
    ("the lowest two bytes", "acft", |r| r.rule = |number| rule(number % 65_536)),
    ("the highest bit left out", "acft", |r| r.rule = |number| rule(number % (1 << 31))),
    ("a magnitude", "acft", |r| r.rule = |number| rule((number as i32).unsigned_abs())),
    ("1 refused", "acft", |r| r.rule = |number| (number == 2).then_some(2)),
    ("2 refused", "acft", |r| r.rule = |number| (number == 1).then_some(1)),
];

/// In where row 18 stands, and in what it tells and leaves.
const OF_ROWS: [Mistake; 18] = [
    ("row 18 before row 1", "cf", |r| r.before = ahead::<1>),
    ("row 18 before row 2", "cf", |r| r.before = ahead::<2>),
    ("row 18 before row 3", "acft", |r| r.before = ahead::<3>),
    ("row 18 before the spread limit alone", "acft", |r| {
        r.before = |other| before(other) && [other.row, other.place] != [3, 4];
    }),
    ("row 18 behind the tolerance alone", "acft", |r| {
        r.before = |other| before(other) && (other.row < 3 || other.place == 0);
    }),
    ("row 18 behind row 4", "cft", |r| r.before = behind::<4>),
    ("row 18 behind row 5", "cft", |r| r.before = behind::<5>),
    ("row 18 behind row 6", "cft", |r| r.before = behind::<6>),
    ("row 18 behind row 7", "ft", |r| r.before = behind::<7>),
    ("row 18 behind row 11", "ft", |r| r.before = behind::<11>),
    ("row 18 behind row 12", "ft", |r| r.before = behind::<12>),
    ("row 18 behind row 8", "f", |r| r.before = behind::<8>),
    ("row 18 behind row 9", "f", |r| r.before = behind::<9>),
    ("row 18 behind row 10", "f", |r| r.before = behind::<10>),
    ("the place of a spread limit", "acft", |r| r.told = |_| [18, 4]),
    ("the number for a place", "acft", |r| r.told = |number| [18, number]),
    ("told as row 3", "acft", |r| r.told = |_| [3, 4]),
    ("the first list all zero", "cf", |r| r.left = first_zeroed),
];

/// In reading the eighth field of a P line.
const OF_FIELDS: [Mistake; 18] = [
    ("an eighth field wanted", "t", |r| {
        r.number = |fields| number(fields).filter(|_| !fields.is_empty());
    }),
    ("no eighth field read", "t", |r| r.number = |fields| fields.is_empty().then_some(1)),
    ("an eighth field read and not used", "t", |r| r.number = |fields| number(fields).map(|_| 1)),
    ("any eighth field for rule 1", "t", |r| {
        r.number = |fields| number(fields).or((fields.len() == 1).then_some(1));
    }),
    ("a ninth field", "t", |r| {
        r.number = |fields| number(&fields[..fields.len().min(1)]);
    }),
    ("a blank behind the eighth", "t", |r| {
        r.number = |fields| match fields {
            [field, ""] => whole(field),
            _ => number(fields),
        };
    }),
    ("an empty field for none", "t", |r| {
        r.number = |fields| if fields == [""] { Some(1) } else { number(fields) };
    }),
    ("two blanks before the eighth", "t", |r| {
        r.number = |fields| match fields {
            ["", field] => whole(field),
            _ => number(fields),
        };
    }),
    ("a minus for none", "t", |r| r.number = |fields| read_as(fields, |f| f.replace('-', "1"))),
    ("no field for rule 2", "t", |r| {
        r.number = |fields| if fields.is_empty() { Some(2) } else { number(fields) };
    }),
    ("a zero before", "t", |r| r.number = |fields| read_as(fields, |f| without('0', f))),
    ("a sign before", "t", |r| r.number = |fields| read_as(fields, |f| without('+', f))),
    ("past the greatest number from 0 on", "t", |r| {
        r.number = |fields| read_as(fields, |f| too_great(f, |number| number as u32));
    }),
    ("past the greatest number that one", "t", |r| {
        r.number = |fields| read_as(fields, |f| too_great(f, |_| u32::MAX));
    }),
    ("the greatest number bad", "t", |r| {
        r.number = |fields| number(fields).filter(|&number| number != u32::MAX);
    }),
    ("hex digits", "t", |r| {
        r.number = |fields| {
            read_as(fields, |f| u32::from_str_radix(f, 16).map_or(f.into(), |n| n.to_string()))
        };
    }),
    ("a number that is no rule bad", "t", |r| r.number = |fields| number(fields).and_then(rule)),
    ("row 18 before the other lines are read", "t", |r| r.early = true),
];

#[test]
fn the_rules_are_right() {
    let all = vectors().map(|(_, cases)| cases).into_iter().chain([texts(|_| true)]);
    for (case, right) in all.flatten() {
        assert_eq!(RIGHT.answer(&case), right);
    }
}

#[test]
fn every_mistake_is_told() {
    let vectors = vectors();
    for (name, tells, make) in [&OF_SLOTS[..], &OF_NUMBERS, &OF_ROWS, &OF_FIELDS].concat() {
        let mut wrong = RIGHT;
        make(&mut wrong);
        for (kind, cases) in &vectors {
            let told = cases.iter().filter(|(case, right)| wrong.answer(case) != *right).count();
            println!("{name}: {told} of {} {kind}", cases.len());
            assert_eq!(told > 0, tells.contains(*kind), "{name}: {kind}");
        }
    }
}
