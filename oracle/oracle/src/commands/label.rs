// oracle label LEASTQUADS LEASTCORNERS [CORNERS]: labels a quad list from standard input.

use oracle::command::{number, Outcome};
use oracle::judge::MOST_CORNERS;
use oracle::quads_text::label_text;
use std::io::Read;

pub fn run(args: &[String]) -> Outcome {
    let least_quads = number(args, 0, "LEASTQUADS")?;
    let least_corners = number(args, 1, "LEASTCORNERS")?;
    let corners = match args.get(2) {
        Some(_) => number(args, 2, "CORNERS")?,
        None => MOST_CORNERS,
    };
    let mut text = String::new();
    std::io::stdin().read_to_string(&mut text).map_err(|e| e.to_string())?;
    print!("{}", label_text(&text, least_quads, least_corners, corners));
    Ok(true)
}
