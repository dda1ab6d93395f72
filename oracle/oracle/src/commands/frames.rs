// oracle frames KIND SEED COUNT [DIR]: generated frames as gridlabel texts, to standard output
// behind a line with their name, or each into a file of DIR with the ruled answer beside it.

use oracle::command::{number, Outcome};
use oracle::generate::bad_text::{spoil, WAYS};
use oracle::generate::{maker, texts, KINDS};
use oracle::judge::TWIN_ROWS;
use oracle::random::Random;
use oracle::stages::Build;
use oracle::text::{answer, MOST_TEXT_CORNERS};
use std::io::Write;
use std::path::Path;

/// A text has room for this many corners.
const CORNERS: usize = MOST_TEXT_CORNERS;

/// A sound frame's text.
fn sound(kind: &str, random: &mut Random) -> Result<String, String> {
    let names: Vec<&str> = KINDS.iter().map(|k| k.0).collect();
    let make = maker(kind).ok_or_else(|| {
        let rows = "row3 .. row7 row11 row12 row18";
        format!("no kind {kind:?}; kinds: {} {rows} bad", names.join(" "))
    })?;
    Ok(texts::sound(make, CORNERS, random))
}

/// The text of a frame that this row refuses, drawn again where another of the rows of twins does.
fn refused(row: u32, random: &mut Random) -> String {
    let damaged = if TWIN_ROWS.contains(&row) { 7 } else { row };
    loop {
        let (text, refusal) = texts::damaged(damaged, CORNERS, random);
        if refusal.row == row {
            return text;
        }
    }
}

/// The text with this number. "bad" goes through the ways of spoiling one in turn.
fn text(kind: &str, seed: u64, i: usize) -> Result<Vec<u8>, String> {
    let mut random = Random::part(seed, i as u64);
    if kind == "bad" {
        let good = sound("warped", &mut random)?;
        return Ok(spoil(WAYS[i % WAYS.len()], &good, &mut random).0);
    }
    match kind.strip_prefix("row").and_then(|row| row.parse().ok()) {
        Some(row @ (3..=7 | 11 | 12 | 18)) => Ok(refused(row, &mut random).into_bytes()),
        _ => Ok(sound(kind, &mut random)?.into_bytes()),
    }
}

fn to_files(dir: &Path, name: &str, text: &[u8]) -> std::io::Result<()> {
    std::fs::create_dir_all(dir)?;
    std::fs::write(dir.join(name), text)?;
    std::fs::write(dir.join(format!("{name}.answer")), answer(text, Build::Ruled))
}

pub fn run(args: &[String]) -> Outcome {
    let kind = &args[0];
    let seed: u64 = number(args, 1, "SEED")?;
    for i in 0..number(args, 2, "COUNT")? {
        let text = text(kind, seed, i)?;
        let name = format!("{kind}-{seed}-{i}");
        let done = match args.get(3) {
            Some(dir) => to_files(dir.as_ref(), &name, &text),
            None => {
                std::io::stdout().write_all(&[format!("# {name}\n").as_bytes(), &text].concat())
            }
        };
        done.map_err(|e| e.to_string())?;
    }
    Ok(true)
}
