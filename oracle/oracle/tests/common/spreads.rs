// The spread rules, in parts each of which can be got wrong, and the cases that tell them.

use frame::Frame;
use oracle::judge::{judge, Refusal};
use oracle::stages::Build;
use oracle::text::{answer, read, write};
use oracle::vectors::texts::text_groups;
use oracle::vectors::{frames, stages, Answer, ByRule, Spreads, Vector};

/// What is known of one slot.
pub struct Slot {
    /// 1 or 2.
    pub rule: u32,
    /// 0 or 1.
    pub slot: usize,
    pub mark: u32,
    pub spread: f32,
    pub limit: f32,
}

/// The rules, each of which can be got wrong.
pub struct Rules {
    pub informative: fn(&Slot) -> bool,
    /// The rule that a number says; none where row 18 refuses it.
    pub rule: fn(u32) -> Option<u32>,
    /// Whether the refusal of another row comes before that of row 18.
    pub before: fn(&Refusal) -> bool,
    /// Row and place that are told of a number that is refused.
    pub told: fn(u32) -> [u32; 2],
    /// The lines of the lists that row 18 leaves, from those of the lists lent.
    pub left: fn(&str) -> String,
    /// The number that the fields behind the seventh of a P line say; none where the line is bad.
    pub number: fn(&[&str]) -> Option<u32>,
    /// Whether row 18 is tried before the lines behind the first are read.
    pub early: bool,
}

pub fn number_informs(slot: &Slot) -> bool {
    slot.spread.is_finite() && slot.spread < slot.limit
}

pub fn informative(slot: &Slot) -> bool {
    if slot.mark == 0 {
        slot.rule == 1
    } else {
        number_informs(slot)
    }
}

pub fn rule(number: u32) -> Option<u32> {
    (number == 1 || number == 2).then_some(number)
}

pub fn before(other: &Refusal) -> bool {
    other.row <= 3
}

/// A decimal is readable exactly when printing it gives it back.
pub fn whole(field: &str) -> Option<u32> {
    field.parse().ok().filter(|number: &u32| number.to_string() == field)
}

pub fn number(fields: &[&str]) -> Option<u32> {
    match fields {
        [] => Some(1),
        [field] => whole(field),
        _ => None,
    }
}

pub const RIGHT: Rules = Rules {
    informative,
    rule,
    before,
    told: |_| [18, 0],
    left: str::to_string,
    number,
    early: false,
};

/// A text, or a case of one of the calls.
pub enum Case {
    Stage(ByRule<stages::Case>),
    Frame(ByRule<frames::Case>),
    Text(Vec<u8>),
}

/// The first line of a text parted at its blanks, each byte a character, and the rest with its
/// line feed.
fn parted(text: &[u8]) -> (Vec<String>, &[u8]) {
    let end = text.iter().position(|&byte| byte == b'\n').unwrap_or(text.len());
    let line: String = text[..end].iter().map(|&byte| byte as char).collect();
    (line.split(' ').map(String::from).collect(), &text[end..])
}

impl Rules {
    /// The frame by rule 1 whose slots inform as these rules say: by a missing spread, or else by NaN
    /// not.
    fn in_rule_1(&self, frame: &Frame, rule: u32) -> Frame {
        let mut same = frame.clone();
        same.params.spread_rule = 1;
        for i in 0..frame.marks.len().min(frame.spreads.len()) {
            let (mark, spread, limit) =
                (frame.marks[i], frame.spreads[i], frame.params.spread_limit);
            let informs = (self.informative)(&Slot { rule, slot: i % 2, mark, spread, limit });
            (same.marks[i], same.spreads[i]) = (!informs as u32, f32::NAN);
        }
        same
    }

    /// Whether row 18 refuses a number where another row gives this refusal or none.
    fn refuses(&self, number: u32, other: Option<Refusal>) -> bool {
        (self.rule)(number).is_none() && !other.is_some_and(|other| (self.before)(&other))
    }

    fn frame(&self, frame: &Frame) -> Frame {
        self.in_rule_1(frame, (self.rule)(frame.params.spread_rule).unwrap_or(1))
    }

    /// The lines of the answer to a case of a call.
    fn lines<C: Spreads>(&self, case: &C) -> String {
        let number = case.frame().params.spread_rule;
        let known = case.with(|case| *case.frame_mut() = self.frame(case.frame())).answer();
        if !self.refuses(number, known.refusal()) {
            return known.lines();
        }
        let untouched = case.with(|case| case.frame_mut().params.spread_limit = f32::NAN).answer();
        let [row, place] = (self.told)(number);
        let lines = untouched.lines();
        let (_, lists) = lines.split_once('\n').unwrap();
        format!("refused {row:08X} {place:08X}\n{}", (self.left)(lists))
    }

    fn said(&self, number: u32) -> String {
        let [row, place] = (self.told)(number);
        format!("refused {row} {place}\n")
    }

    /// What the program says of a text.
    fn text(&self, text: &[u8]) -> String {
        let (fields, rest) = parted(text);
        let fields: Vec<&str> = fields.iter().map(String::as_str).collect();
        let (seven, more) = fields.split_at(fields.len().min(8));
        let Some(number) = (self.number)(more) else {
            return "bad 1\n".to_string();
        };
        let first: Vec<u8> = seven.join(" ").chars().map(|byte| byte as u8).collect();
        let read = read(&[&first, rest].concat());
        if self.early && self.refuses(number, None) && !matches!(read, Err(1)) {
            return self.said(number);
        }
        match read {
            Err(line) => format!("bad {line}\n"),
            Ok(frame) => self.program(frame, number),
        }
    }

    /// What the program says of a frame by a rule.
    fn program(&self, mut frame: Frame, number: u32) -> String {
        frame.params.spread_rule = number;
        let known = self.frame(&frame);
        match self.refuses(number, judge(&known)) {
            true => self.said(number),
            false => answer(write(&known).as_bytes(), Build::Ruled),
        }
    }

    pub fn answer(&self, case: &Case) -> String {
        match case {
            Case::Stage(case) => self.lines(&case.0),
            Case::Frame(case) => self.lines(&case.0),
            Case::Text(text) => self.text(text),
        }
    }
}

/// A case with its answer.
pub type Answered = (Case, String);

fn stage_cases(kind: stages::Kind) -> Vec<Answered> {
    let own = stages::rule_cases().into_iter().filter(|case| case.0.kind == kind);
    own.map(|case| (Case::Stage(case.clone()), case.answer().lines())).collect()
}

fn frame_cases() -> Vec<Answered> {
    let cases = frames::rule_cases().into_iter();
    cases.map(|case| (Case::Frame(case.clone()), case.answer().lines())).collect()
}

pub fn texts(picks: impl Fn(&str) -> bool) -> Vec<Answered> {
    let groups = text_groups().into_iter().filter(|group| picks(group.name));
    let texts = groups.flat_map(|group| group.texts);
    texts.map(|text| (Case::Text(text.clone()), answer(&text, Build::Ruled))).collect()
}

/// The cases by a rule, and the texts about it, each kind by a letter.
pub fn vectors() -> [(char, Vec<Answered>); 4] {
    [
        ('a', stage_cases(stages::Kind::Axis)),
        ('c', stage_cases(stages::Kind::Classes)),
        ('f', frame_cases()),
        ('t', texts(|name| name == "rules")),
    ]
}
