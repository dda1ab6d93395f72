// oracle gridlabel [plain|ruled]: answers a gridlabel text from standard input.

use oracle::command::Outcome;
use oracle::stages::Build;
use oracle::text::answer;
use std::io::Read;

pub fn run(args: &[String]) -> Outcome {
    let build = match args.first().map(String::as_str) {
        None | Some("ruled") => Build::Ruled,
        Some("plain") => Build::Plain,
        Some(other) => return Err(format!("no build {other:?}")),
    };
    let mut text = Vec::new();
    std::io::stdin().read_to_end(&mut text).map_err(|e| e.to_string())?;
    print!("{}", answer(&text, build));
    Ok(true)
}
