// oracle demand COUNT SEED: the original's walk beside document 01's third demand, on quad lists.

use oracle::command::{count_and_seed, Outcome};
use oracle::generate::quad_lists::QUAD_KINDS;
use oracle::walked::walked;

fn line(name: &str, words: &[String]) {
    let cells: Vec<String> = words.iter().map(|w| format!("{w:>9}")).collect();
    println!("{name:>8} {}", cells.join(" "));
}

pub fn run(args: &[String]) -> Outcome {
    let (lists, seed) = count_and_seed(args)?;
    let found = walked(plain::label, lists, seed);
    let head = ["lists", "groups", "few quads", "unlabeled", "few lone", "kept", "differ"];
    line("kind", &head.map(String::from));
    for ((name, _), counts) in QUAD_KINDS.iter().zip(&found.kinds) {
        line(name, &counts.map(|n| n.to_string()));
    }
    match &found.first {
        Some(list) => println!("first difference: {list:?}"),
        None => println!("no difference"),
    }
    Ok(found.first.is_none())
}
