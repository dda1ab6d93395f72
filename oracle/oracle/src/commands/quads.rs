// oracle quads KIND SEED COUNT DIR: generated quad lists, each in a file with its arguments for
// `oracle label` and the answer beside it.

use oracle::command::{number, Outcome};
use oracle::generate::quad_lists::{quad_list, QUAD_KINDS};
use oracle::quads_text::label_text;
use oracle::random::Random;
use std::path::Path;

fn write(dir: &Path, name: &str, kind: usize, random: &mut Random) -> std::io::Result<()> {
    let list = quad_list(kind, random);
    let text: String = list.quads.iter().map(|[a, b, c, d]| format!("{a} {b} {c} {d}\n")).collect();
    let args = format!("{} {} {}\n", list.least_quads, list.least_corners, list.corners);
    let answer = label_text(&text, list.least_quads, list.least_corners, list.corners);
    std::fs::write(dir.join(name), text)?;
    std::fs::write(dir.join(format!("{name}.args")), args)?;
    std::fs::write(dir.join(format!("{name}.answer")), answer)
}

pub fn run(args: &[String]) -> Outcome {
    let name = &args[0];
    let names: Vec<&str> = QUAD_KINDS.iter().map(|k| k.0).collect();
    let kind = names
        .iter()
        .position(|n| n == name)
        .ok_or_else(|| format!("no kind {name:?}; kinds: {}", names.join(" ")))?;
    let seed: u64 = number(args, 1, "SEED")?;
    let dir = Path::new(&args[3]);
    std::fs::create_dir_all(dir).map_err(|e| e.to_string())?;
    for i in 0..number(args, 2, "COUNT")? {
        let file = format!("{name}-{seed}-{i}");
        write(dir, &file, kind, &mut Random::part(seed, i)).map_err(|e| e.to_string())?;
    }
    Ok(true)
}
