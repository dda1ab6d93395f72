// Spoils a sound gridlabel text, one way at a time, and says which line is the first bad one.

use crate::random::Random;

/// The ways, each once.
pub const WAYS: [&str; 27] = [
    "empty",
    "no last feed",
    "empty line",
    "blank at end",
    "two blanks",
    "blank at start",
    "carriage return",
    "tab",
    "odd byte",
    "lower-case hex",
    "seven digits",
    "nine digits",
    "leading zero",
    "plus sign",
    "past u32",
    "eleven digits",
    "minus angle",
    "minus corner",
    "minus count",
    "field missing",
    "field too many",
    "unknown letter",
    "lower-case letter",
    "second P",
    "no P",
    "C after T",
    "over limit",
];

type Lines = Vec<Vec<u8>>;

fn join(lines: &Lines) -> Vec<u8> {
    lines.iter().flat_map(|line| [line.as_slice(), b"\n"].concat()).collect()
}

/// A random line that begins with one of the letters, counted from 0.
fn pick(lines: &Lines, letters: &[u8], random: &mut Random) -> usize {
    let fits: Vec<usize> = (0..lines.len()).filter(|&i| letters.contains(&lines[i][0])).collect();
    random.pick(&fits)
}

/// Writes another word into a field of a line; field 0 is the letter.
fn put(line: &mut Vec<u8>, field: usize, word: &[u8]) {
    let mut fields: Vec<&[u8]> = line.split(|&b| b == b' ').collect();
    fields[field] = word;
    *line = fields.join(&b' ');
}

fn field(line: &[u8], number: usize) -> &[u8] {
    line.split(|&b| b == b' ').nth(number).expect("the field")
}

/// Ways that spoil the shape of any line.
fn spoil_shape(way: &str, line: &mut Vec<u8>, random: &mut Random) {
    let blank = line.iter().position(|&b| b == b' ').expect("a blank");
    match way {
        "empty line" => line.clear(),
        "blank at end" => line.push(b' '),
        "two blanks" => line.insert(blank, b' '),
        "blank at start" => line.insert(0, b' '),
        "carriage return" => line.push(b'\r'),
        "tab" => line[blank] = b'\t',
        "odd byte" => {
            line[blank + 1] = random.pick(&[0u8, 0xFF, 0xC3, b'.', b':', b'/', b'G', b'@'])
        }
        "field missing" => line.truncate(line.iter().rposition(|&b| b == b' ').expect("a blank")),
        // the P line may have one field more
        "field too many" if line[0] == b'P' => line.extend(b" 1 0"),
        "field too many" => line.extend(b" 0"),
        "unknown letter" => line[0] = random.pick(b"QAZ#0"),
        _ => line[0] = line[0].to_ascii_lowercase(),
    }
}

/// Ways that spoil a hex float: field 1 of a C line is x.
fn spoil_float(way: &str, line: &mut Vec<u8>) {
    let word = field(line, 1).to_vec();
    match way {
        "lower-case hex" => put(line, 1, b"3f80000a"),
        "seven digits" => put(line, 1, &word[..7]),
        "nine digits" => put(line, 1, &[b"0", word.as_slice()].concat()),
        _ => put(line, 3, b"-"),
    }
}

/// Ways that spoil a whole number; the last two fields of P and all of T are such.
fn spoil_whole(way: &str, line: &mut Vec<u8>, random: &mut Random) {
    let place = if line[0] == b'P' { 6 } else { 1 } + random.below(2);
    let word = field(line, place).to_vec();
    match way {
        "leading zero" => put(line, place, &[b"0", word.as_slice()].concat()),
        "plus sign" => put(line, place, &[b"+", word.as_slice()].concat()),
        "past u32" => put(line, place, random.pick(&[&b"4294967296"[..], b"9999999999"])),
        "eleven digits" => put(line, place, b"10000000000"),
        _ => put(line, place, b"-"),
    }
}

/// Ways that put a sound line where it may not stand; the answer is its place from 0.
fn misplace(way: &str, lines: &mut Lines, random: &mut Random) -> usize {
    let corners = lines.iter().filter(|l| l[0] == b'C').count();
    match way {
        "second P" => {
            let at = 1 + random.below(lines.len());
            lines.insert(at, lines[0].clone());
            at
        }
        "no P" => {
            lines.remove(0);
            0
        }
        "C after T" => {
            lines.push(lines[1].clone());
            lines.len() - 1
        }
        _ if random.coin() => {
            let extra = vec![lines[1].clone(); 129 - corners];
            lines.splice(1..1, extra);
            129
        }
        _ => {
            let last = lines.last().expect("a T line").clone();
            lines.resize(1 + corners + 257, last);
            corners + 257
        }
    }
}

/// Spoils a text that has a P line, C lines and T lines. Gives the bytes and the bad line from 1.
pub fn spoil(way: &str, text: &str, random: &mut Random) -> (Vec<u8>, usize) {
    let mut lines: Lines = text.lines().map(|l| l.as_bytes().to_vec()).collect();
    let at = match way {
        "empty" => return (Vec::new(), 1),
        "no last feed" => {
            let count = lines.len();
            return (text.trim_end().as_bytes().to_vec(), count);
        }
        "second P" | "no P" | "C after T" | "over limit" => misplace(way, &mut lines, random),
        "lower-case hex" | "seven digits" | "nine digits" | "minus angle" => {
            let at = pick(&lines, b"C", random);
            spoil_float(way, &mut lines[at]);
            at
        }
        "leading zero" | "plus sign" | "past u32" | "eleven digits" | "minus corner"
        | "minus count" => {
            let letters: &[u8] = match way {
                "minus corner" => b"T",
                "minus count" => b"P",
                _ => b"PT",
            };
            let at = pick(&lines, letters, random);
            spoil_whole(way, &mut lines[at], random);
            at
        }
        _ => {
            let at = pick(&lines, b"PCT", random);
            spoil_shape(way, &mut lines[at], random);
            at
        }
    };
    (join(&lines), at + 1)
}
