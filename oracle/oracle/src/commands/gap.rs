// oracle gap COUNT SEED: the gap between document 01's numbers and the original's.

use oracle::command::{count_and_seed, Outcome};
use oracle::gap::{measure, Gap};

fn show(name: &str, words: &str, gap: &Gap) {
    let share = 100.0 * gap.equal as f64 / gap.pairs.max(1) as f64;
    println!("{name}: {} pairs, {} bit-equal ({share:.4} %)", gap.pairs, gap.equal);
    println!("  greatest gap {:e}", gap.greatest);
    println!("  at {words} {:08X} {:08X}", gap.at[0], gap.at[1]);
    println!("  rule {:08X}, original {:08X}", gap.rule, gap.original);
}

pub fn run(args: &[String]) -> Outcome {
    let (count, seed) = count_and_seed(args)?;
    let gaps = measure(count, seed);
    show("angle", "dx dy", &gaps.angle);
    show("distance", "angle axis", &gaps.distance);
    show("distance, each from its own angle", "atan2's angle, axis", &gaps.both);
    Ok(true)
}
