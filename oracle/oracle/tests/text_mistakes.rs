// A second reader of texts, by which a field is readable exactly when printing its value gives it
// back; and mistakes in reading, each of which some of the text vectors tell.

mod common {
    pub mod mistakes;
}

use common::mistakes::{each_is_told, is_told, wrong, Mistake};
use oracle::stages::Build;
use oracle::text::answer;
use oracle::vectors::texts::text_groups;

/// The rules of reading, each of which can be got wrong.
struct Rules {
    /// What a line is taken for before it is read.
    taken: Box<dyn Fn(&str) -> String>,
    float: Box<dyn Fn(&str) -> bool>,
    whole: Box<dyn Fn(&str) -> bool>,
    /// The fields of each letter: h a float, H that or a minus, d a decimal, D that or a minus, o a
    /// decimal at the end that may be left out, O that or a minus.
    forms: [(&'static str, &'static str); 3],
    /// Whether a line of this letter may follow so many of each letter.
    follows: fn(usize, [usize; 3]) -> bool,
    unended: bool,
    first_number: usize,
}

fn float(field: &str) -> bool {
    u32::from_str_radix(field, 16).is_ok_and(|word| format!("{word:08X}") == field)
}

fn whole(field: &str) -> bool {
    field.parse::<u32>().is_ok_and(|number| number.to_string() == field)
}

fn follows(letter: usize, [p, c, t]: [usize; 3]) -> bool {
    match letter {
        0 => p == 0,
        1 => p == 1 && t == 0 && c < 128,
        _ => p == 1 && t < 256,
    }
}

const FORMS: [(&str, &str); 3] = [("P", "hhhhhddo"), ("C", "hhhHhH"), ("T", "dddDDD")];

fn right() -> Rules {
    Rules {
        taken: Box::new(str::to_string),
        float: Box::new(float),
        whole: Box::new(whole),
        forms: FORMS,
        follows,
        unended: false,
        first_number: 1,
    }
}

impl Rules {
    fn readable(&self, form: char, field: &str) -> bool {
        match form {
            'H' | 'D' | 'O' if field == "-" => true,
            'h' | 'H' => (self.float)(field),
            _ => (self.whole)(field),
        }
    }

    /// The letter of a readable line.
    fn letter(&self, line: &str) -> Option<usize> {
        let line = (self.taken)(line);
        let fields: Vec<&str> = line.split(' ').collect();
        let letter = self.forms.iter().position(|form| form.0 == fields[0])?;
        let form = self.forms[letter].1;
        let readable = |(form, field): (char, &&str)| self.readable(form, field);
        let all = form.chars().zip(&fields[1..]).all(readable);
        let counts = form.trim_end_matches(['o', 'O']).len()..=form.len();
        (all && counts.contains(&(fields.len() - 1))).then_some(letter)
    }

    /// The number of the first bad line, if there is one. Each byte is a character.
    fn bad(&self, text: &[u8]) -> Option<usize> {
        let text: String = text.iter().map(|&byte| byte as char).collect();
        let (mut seen, mut number) = ([0; 3], self.first_number);
        for line in text.split_inclusive('\n') {
            let ended = line.strip_suffix('\n');
            let line = if self.unended { Some(ended.unwrap_or(line)) } else { ended };
            let letter = line.and_then(|line| self.letter(line));
            match letter.filter(|&letter| (self.follows)(letter, seen)) {
                Some(letter) => seen[letter] += 1,
                None => return Some(number),
            }
            number += 1;
        }
        text.is_empty().then_some(number)
    }
}

fn take(rules: &mut Rules, taken: impl Fn(&str) -> String + 'static) {
    rules.taken = Box::new(taken);
}

/// Reads also what a change makes a float of, or a decimal.
fn floats(rules: &mut Rules, change: impl Fn(&str) -> String + 'static) {
    rules.float = Box::new(move |field| float(field) || float(&change(field)));
}

fn wholes(rules: &mut Rules, change: impl Fn(&str) -> String + 'static) {
    rules.whole = Box::new(move |field| whole(field) || whole(&change(field)));
}

fn without(start: &str, field: &str) -> String {
    field.strip_prefix(start).unwrap_or(field).to_string()
}

/// A decimal of so many digits, of any size.
fn digits(count: usize, field: &str) -> bool {
    let all = field.bytes().all(|b| b.is_ascii_digit());
    field.len() == count && all && !field.starts_with('0')
}

const MISTAKES: [Mistake<Rules>; 28] = [
    ("lower-case digits", |r| floats(r, str::to_uppercase)),
    ("a lower-case letter", |r| {
        take(r, |line| line.replacen('p', "P", 1).replacen('c', "C", 1).replacen('t', "T", 1))
    }),
    ("a blank at the end", |r| take(r, |line| line.trim_end_matches(' ').to_string())),
    ("a carriage return at the end", |r| take(r, |line| line.trim_end_matches('\r').to_string())),
    ("a blank at the start", |r| take(r, |line| line.trim_start_matches(' ').to_string())),
    ("two blanks for one", |r| take(r, |line| line.replace("  ", " "))),
    ("a zero before", |r| wholes(r, |field| without("0", field))),
    ("a sign before", |r| wholes(r, |field| without("+", field))),
    ("fewer digits of a float", |r| floats(r, |field| format!("{field:0>8}"))),
    ("more digits of a float", |r| floats(r, |field| without("0", field))),
    ("numbers past the greatest", |r| {
        wholes(r, |field| {
            field.parse::<u64>().map_or(field.to_string(), |n| (n as u32).to_string())
        })
    }),
    ("any ten digits", |r| r.whole = Box::new(|field| whole(field) || digits(10, field))),
    ("eleven digits", |r| r.whole = Box::new(|field| whole(field) || digits(11, field))),
    ("the first ten digits of more", |r| wholes(r, |field| field.chars().take(10).collect())),
    ("the greatest refused", |r| r.whole = Box::new(|field| whole(field) && field != "4294967295")),
    ("a minus for a corner", |r| r.forms[2].1 = "DDDDDD"),
    ("a minus for an angle", |r| r.forms[1].1 = "hhHHHH"),
    ("no minus for a twin", |r| r.forms[2].1 = "dddddd"),
    ("no spread rule", |r| r.forms[0].1 = "hhhhhdd"),
    ("a spread rule wanted", |r| r.forms[0].1 = "hhhhhddd"),
    ("a field behind the rule", |r| r.forms[0].1 = "hhhhhddoo"),
    ("a minus for a rule", |r| r.forms[0].1 = "hhhhhddO"),
    ("P twice", |r| r.follows = |letter, seen| letter == 0 || follows(letter, seen)),
    ("C after T", |r| {
        r.follows = |letter, [p, c, t]| follows(letter, [p, c, if letter == 1 { 0 } else { t }])
    }),
    ("a corner more", |r| {
        r.follows = |letter, [p, c, t]| follows(letter, [p, c.saturating_sub(1), t])
    }),
    ("a triangle more", |r| {
        r.follows = |letter, [p, c, t]| follows(letter, [p, c, if t == 256 { 255 } else { t }])
    }),
    ("the last line feed left out", |r| r.unended = true),
    ("lines counted from 0", |r| r.first_number = 0),
];

/// A line of a letter with 1 for eleven digits in one of its fields.
fn short_for(line: &str, letter: &str, place: usize) -> String {
    let mut fields: Vec<&str> = line.split(' ').collect();
    if fields[0] == letter && fields.get(place).is_some_and(|field| digits(11, field)) {
        fields[place] = "1";
    }
    fields.join(" ")
}

/// A line of a letter with a blank for the comma before one of its fields.
fn blank_for(line: &str, letter: &str, place: usize) -> String {
    let mut places = line.match_indices([' ', ',']).map(|(at, _)| at);
    match places.nth(place - 1).filter(|_| line.starts_with(letter)) {
        Some(at) => format!("{} {}", &line[..at], &line[at + 1..]),
        None => line.to_string(),
    }
}

/// A comma for one blank, and eleven digits in one field.
fn in_one_place() -> Vec<(String, Rules)> {
    let places = |(letter, form): (&'static str, &'static str)| {
        (1..).zip(form.chars()).map(move |(place, kind)| (letter, place, kind))
    };
    let places: Vec<_> = FORMS.into_iter().flat_map(places).collect();
    let commas = places.iter().map(|&(letter, place, _)| {
        let name = format!("a comma before field {place} of {letter}");
        wrong(name, right(), |r| take(r, move |line| blank_for(line, letter, place)))
    });
    let decimals = places.iter().filter(|(_, _, kind)| "dDo".contains(*kind));
    let long = decimals.map(|&(letter, place, _)| {
        let name = format!("eleven digits in field {place} of {letter}");
        wrong(name, right(), |r| take(r, move |line| short_for(line, letter, place)))
    });
    commas.chain(long).collect()
}

/// A byte read for a blank, for a digit of a float, for a digit of a decimal.
fn of_a_byte(byte: u8) -> Vec<(String, Rules)> {
    let odd = byte as char;
    let one = move |text: &str| text.replace(odd, "1");
    let name = |what: &str| format!("{odd:?} for {what}");
    let mut found =
        vec![wrong(name("a blank"), right(), |r| take(r, move |line| line.replace(odd, " ")))];
    if !float(&format!("0000000{odd}")) {
        found.push(wrong(name("a float's digit"), right(), |r| floats(r, one)));
    }
    if !byte.is_ascii_digit() {
        found.push(wrong(name("a decimal's digit"), right(), |r| wholes(r, one)));
    }
    found
}

/// The texts, each with what the program says of bad lines.
fn judged() -> Vec<(Vec<u8>, Option<usize>)> {
    let told = |text: &[u8]| {
        let said = answer(text, Build::Ruled);
        said.strip_prefix("bad ").map(|n| n.trim_end().parse().unwrap())
    };
    let texts = text_groups().into_iter().flat_map(|group| group.texts);
    texts.map(|text| (text.clone(), told(&text))).collect()
}

fn tell(mistakes: Vec<(String, Rules)>, cases: &[(Vec<u8>, Option<usize>)]) {
    mistakes.iter().for_each(|mistake| is_told(mistake, cases, |rules, text| rules.bad(text)));
}

#[test]
fn the_rules_are_right() {
    for (text, bad) in judged() {
        assert_eq!(right().bad(&text), bad, "{}", String::from_utf8_lossy(&text));
    }
}

#[test]
fn every_mistake_is_told() {
    let cases = judged();
    each_is_told(right, &MISTAKES, &cases, |rules, text| rules.bad(text));
    tell(in_one_place(), &cases);
}

/// Those texts alone that are about bytes: there are many bytes.
#[test]
fn every_byte_is_told() {
    let short: Vec<_> = judged().into_iter().filter(|(text, _)| text.len() < 60).collect();
    let bytes = (0..=u8::MAX).filter(|byte| !b" \n".contains(byte));
    bytes.for_each(|byte| tell(of_a_byte(byte), &short));
}
