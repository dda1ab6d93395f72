// Short texts chosen by hand: each field at the ends of what it may say, lines out of place, and
// what a line may not hold.

use crate::examples::SQUARE;

const P: &str = "P 3E800000 3FC00000 3F000000 40000000 3F800000 1 4\n";
const C: &str = "C 00000000 00000000 7FC00000 - 3FC90FDB FFFFFFFF\n";
const T: &str = "T 0 1 2 - - -\n";

/// Lines put together, from their letters.
fn text(letters: &str) -> String {
    let line = |letter| match letter {
        'P' => P,
        'C' => C,
        'T' => T,
        _ => "\n",
    };
    letters.chars().map(line).collect()
}

/// Which lines stand where; a blank is an empty line.
const ORDERS: [&str; 27] = [
    "", "P", "C", "T", " ", "PP", "PC", "PT", "P ", "CP", "TP", " P", "PCC", "PCT", "PTC", "PTT",
    "PCP", "PTP", "PC T", "PCTC", "PCTP", "PCTT", "PCCCT", "PCCCTT", "PCCCTCT", "PCCCTT ", "PPCT",
];

/// Words for a place where a float may stand.
const FLOATS: [&str; 18] = [
    "00000000",
    "80000000",
    "FFFFFFFF",
    "7F800000",
    "0000000",
    "000000000",
    "3f800000",
    "3F80000g",
    "-",
    "",
    "0",
    "+3F80000",
    "-3F80000",
    "0x3F8000",
    "3F80 000",
    "3F80000O",
    "GFFFFFFF",
    "3F8000_0",
];

/// Words for a place where a decimal may stand.
pub const WHOLES: [&str; 27] = [
    "0",
    "1",
    "9",
    "10",
    "4294967294",
    "4294967295",
    "4294967296",
    "4294967300",
    "9999999999",
    "10000000000",
    "42949672960",
    "42949672961",
    "99999999999",
    "18446744073709551616",
    "18446744073709551617",
    "00",
    "01",
    "007",
    "-",
    "-1",
    "+1",
    "",
    "1.0",
    "1e3",
    "A",
    "0x1",
    "1_0",
];

/// A line with another word in a field; field 0 is the letter.
fn put(line: &str, field: usize, word: &str) -> String {
    let mut fields: Vec<&str> = line.trim_end_matches('\n').split(' ').collect();
    fields[field] = word;
    fields.join(" ") + "\n"
}

fn orders(texts: &mut Vec<String>) {
    texts.extend(ORDERS.map(text));
    texts.extend(ORDERS.map(|letters| text(letters).trim_end_matches('\n').to_string()));
}

fn fields(texts: &mut Vec<String>) {
    for word in FLOATS {
        texts.extend((1..=5).map(|field| put(P, field, word) + C));
        texts.extend((1..=6).map(|field| P.to_string() + &put(C, field, word) + T));
    }
    for word in WHOLES {
        texts.extend((6..=7).map(|field| put(P, field, word)));
        texts.extend((1..=6).map(|field| text("PCCC") + &put(T, field, word)));
    }
    for word in ["", "p", "PP", "Q", "c", "t", "CT", "-", "0", "#"] {
        texts.push(put(P, 0, word) + C + T);
        texts.push(P.to_string() + &put(C, 0, word) + T);
        texts.push(text("PC") + &put(T, 0, word));
    }
}

/// What may stand at a line's ends or between its fields, and may not.
fn blanks(texts: &mut Vec<String>) {
    for odd in [" ", "\t", "\r", "\0", "  ", " 0", " -", "é", "\u{7F}", "\r\n", "\n\n", "#"] {
        for line in 0..7 {
            let lines: Vec<&str> = SQUARE.lines().collect();
            let joined = |line_of: &dyn Fn(&str) -> String| {
                let line_at =
                    |(i, l): (usize, &&str)| if i == line { line_of(l) } else { l.to_string() };
                lines.iter().enumerate().map(line_at).collect::<Vec<_>>().join("\n") + "\n"
            };
            texts.push(joined(&|l| l.to_string() + odd));
            texts.push(joined(&|l| odd.to_string() + l));
            texts.push(joined(&|l| l.replacen(' ', odd, 2)));
        }
    }
}

/// Every byte in the place of a blank, of a float's digit and of a decimal.
fn every_byte() -> Vec<Vec<u8>> {
    let places = [1, 2, P.len() - 4];
    let bytes = |place| (0..=u8::MAX).map(move |byte| (place, byte));
    let text = |(place, byte)| {
        let mut text = P.as_bytes().to_vec();
        text[place] = byte;
        text
    };
    places.into_iter().flat_map(bytes).map(text).collect()
}

/// Document 01's text, and the same with a twin written out, with other least numbers, and with
/// lines left out.
fn squares(texts: &mut Vec<String>) {
    texts.push(SQUARE.to_string());
    texts.push(SQUARE.replace("- - 3", "4294967295 - 3"));
    texts.push(SQUARE.replace("- - 3", "- 4294967295 4294967295"));
    for least in ["0 0", "1 0", "1 5", "2 4", "4294967295 4294967295", "0 4"] {
        texts.push(SQUARE.replacen("1 4", least, 1));
    }
    let lines: Vec<&str> = SQUARE.split_inclusive('\n').collect();
    texts.extend((0..lines.len()).map(|out| [&lines[..out], &lines[out + 1..]].concat().concat()));
    texts.extend((0..=lines.len()).map(|count| lines[..count].concat()));
}

pub fn texts() -> Vec<Vec<u8>> {
    let mut texts = Vec::new();
    orders(&mut texts);
    fields(&mut texts);
    blanks(&mut texts);
    squares(&mut texts);
    let mut texts: Vec<Vec<u8>> = texts.into_iter().map(String::into_bytes).collect();
    texts.extend(every_byte());
    let mut seen = std::collections::HashSet::new();
    texts.retain(|text| seen.insert(text.clone()));
    texts
}
