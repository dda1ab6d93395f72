// Times of this and of the Rust in one run, each the best of several rounds, as the rows of a table.

use std::hint::black_box;
use std::time::Instant;

const ROUNDS: usize = 200;

/// Microseconds of the best round; what a round needs is made before its time begins.
pub fn best<T, R>(make: impl Fn() -> T, mut call: impl FnMut(T) -> R) -> f64 {
    let mut least = f64::INFINITY;
    for _ in 0..ROUNDS {
        let own = make();
        let start = Instant::now();
        black_box(call(own));
        least = least.min(start.elapsed().as_nanos() as f64 / 1_000.0);
    }
    least
}

const TIMES: [&str; 3] = ["this", "the Rust", "ratio"];

fn print_head(columns: &[&str]) {
    println!("| {} |", columns.join(" | "));
    println!("|{}", "---|".repeat(columns.len()));
}

fn line(name: &str, counts: &[usize], ours: f64, theirs: f64) -> String {
    let counts: String = counts.iter().map(|count| format!(" {count} |")).collect();
    format!("| {name} |{counts} {ours:.1} | {theirs:.1} | {:.2} |", ours / theirs)
}

/// The head of a table: its unit, then the names of the counts that a row has.
pub fn head(unit: &str, counts: &[&str]) {
    print_head(&[&[unit], counts, &TIMES].concat());
}

pub fn row(name: &str, counts: &[usize], ours: f64, theirs: f64) {
    println!("{}", line(name, counts, ours, theirs));
}

/// The head of a table whose first count is of corners, and which ends with what a corner costs.
pub fn head_by_corner(counts: &[&str]) {
    print_head(&[&[&format!("best of {ROUNDS}, µs"), "corners"], counts, &TIMES, &["this, ns a corner"]].concat());
}

pub fn row_by_corner(name: &str, corners: usize, counts: &[usize], ours: f64, theirs: f64) {
    let each = if corners == 0 { "–".to_string() } else { format!("{:.0}", 1_000.0 * ours / corners as f64) };
    println!("{} {each} |", line(name, &[&[corners], counts].concat(), ours, theirs));
}

/// The head of a table of calls that are lent lists.
pub fn head_of_calls(counts: &[&str]) {
    head(&format!("best of {ROUNDS}, µs"), counts);
}

/// A row of such a table: the quads given, the counts that both sides must tell, and their times. What a round of the Rust needs is
/// made before its time begins.
pub fn row_of_calls<T, const COUNTS: usize>(
    name: &str,
    quads: usize,
    mut ours: impl FnMut() -> [usize; COUNTS],
    make: impl Fn() -> T,
    mut theirs: impl FnMut(T) -> [usize; COUNTS],
) {
    let counts = ours();
    assert_eq!(counts, theirs(make()));
    let (ours, theirs) = (best(|| (), |()| ours()), best(make, theirs));
    row(name, &[&[quads], &counts[..]].concat(), ours, theirs);
}

/// What stands under such a table.
pub fn say_what_is_lent() {
    println!("The lent lists are not cleared before a call: they are as the call before left them, its workspace all zero.");
}
