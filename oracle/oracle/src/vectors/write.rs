// Writes the number vectors as files: inputs in data/, their names in args, answers in stdout.

use std::io;
use std::path::Path;

use super::pack::{write, File, Written};
use super::{angles, distances, roots};

fn word(x: f32) -> String {
    format!("{:08X}\n", x.to_bits())
}

fn pairs(name: &str, list: &[[u32; 2]], answer: impl Fn(f32, f32) -> String) -> File {
    let cases: String = list.iter().map(|[a, b]| format!("{a:08X} {b:08X}\n")).collect();
    let given = list.iter().map(|pair| pair.map(f32::from_bits));
    let answers = given.map(|[a, b]| answer(a, b)).collect();
    File { name: name.to_string(), cases: cases.into_bytes(), answers }
}

fn singles(name: &str, list: &[u32], answer: impl Fn(f32) -> String) -> File {
    let cases: String = list.iter().map(|a| format!("{a:08X}\n")).collect();
    let answers = list.iter().map(|&a| answer(f32::from_bits(a))).collect();
    File { name: name.to_string(), cases: cases.into_bytes(), answers }
}

fn or_refused(answer: Option<f32>) -> String {
    answer.map_or("refused 00000004 00000000\n".to_string(), word)
}

fn or_none(answer: Option<f32>) -> String {
    answer.map_or("none\n".to_string(), word)
}

fn files() -> [File; 5] {
    let angle = |dx, dy| or_refused(rules::angle_or_refused(dx, dy));
    let distance = |a, b| or_none(rules::distance_or_none(a, b));
    let [angles_1, angles_2] = angles();
    let [distances_1, distances_2] = distances();
    [
        singles("roots-1", &roots(), |x| or_refused(rules::root_or_refused(x))),
        pairs("angles-1", &angles_1, angle),
        pairs("angles-2", &angles_2, angle),
        pairs("distances-1", &distances_1, distance),
        pairs("distances-2", &distances_2, distance),
    ]
}

/// Writes everything into a folder and says how many rows each file has.
pub fn write_numbers(folder: &Path) -> io::Result<Written<String>> {
    let files = files();
    let rows = |file: &File| file.cases.split(|&b| b == b'\n').count() - 1;
    let summary = files.iter().map(|file| format!("{} {} rows\n", file.name, rows(file))).collect();
    Ok(Written { files: write(folder, &files)?, summary })
}
