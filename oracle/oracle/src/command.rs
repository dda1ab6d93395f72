// What a program of commands needs: words that are read strictly, and a status that tells how a
// comparison ended.

use std::num::NonZeroU64;
use std::ops::RangeInclusive;
use std::process::ExitCode;
use std::str::FromStr;

/// Whether all that was compared is the same, as it is where nothing was to be compared; or what
/// is wrong with the words.
pub type Outcome = Result<bool, String>;

/// A command's name, how many words it takes after that, and what it does with them.
pub type Command = (&'static str, RangeInclusive<usize>, fn(&[String]) -> Outcome);

/// Reads the word at a place, which has a name in the list of commands.
pub fn number<T: FromStr>(words: &[String], place: usize, name: &str) -> Result<T, String> {
    let given = words.get(place).ok_or_else(|| format!("{name} is missing"))?;
    given.parse().map_err(|_| format!("{name} cannot be {given:?}"))
}

/// The COUNT and SEED of a run. A run over nothing would show nothing: COUNT is above 0.
pub fn count_and_seed(words: &[String]) -> Result<(u64, u64), String> {
    let count: NonZeroU64 = number(words, 0, "COUNT")?;
    Ok((count.get(), number(words, 1, "SEED")?))
}

/// The words after a name, which may be of several words, if they begin with it.
fn after<'a>(words: &'a [String], name: &str) -> Option<&'a [String]> {
    let (front, rest) = words.split_at_checked(name.split(' ').count())?;
    (front.join(" ") == name).then_some(rest)
}

/// Runs the command that the words begin with.
pub fn run(commands: &[Command], words: &[String]) -> Outcome {
    let mut named = commands.iter().filter_map(|command| Some((command, after(words, command.0)?)));
    match named.next() {
        Some(((_, takes, run), rest)) if takes.contains(&rest.len()) => run(rest),
        Some(((name, ..), rest)) => Err(format!("{name} cannot take these words: {rest:?}")),
        None => Err(format!("no command {words:?}")),
    }
}

/// 0, or 1 where something differs, or 2 where the words are wrong.
pub fn status(outcome: &Outcome) -> u8 {
    match outcome {
        Ok(true) => 0,
        Ok(false) => 1,
        Err(_) => 2,
    }
}

/// A program. `help` or `--help` prints the list of commands; no word is refused with that list, on
/// standard error. Else one line there says why the status is not 0.
pub fn program(commands: &[Command], help: &str) -> ExitCode {
    let words = std::env::args_os().skip(1).map(|word| word.to_string_lossy().into_owned());
    let words: Vec<String> = words.collect();
    if words.is_empty() {
        eprint!("{help}");
        return ExitCode::from(2);
    }
    if words == ["help"] || words == ["--help"] {
        print!("{help}");
        return ExitCode::SUCCESS;
    }
    let outcome = run(commands, &words);
    match &outcome {
        Ok(true) => (),
        Ok(false) => eprintln!("something differs"),
        Err(why) => eprintln!("{why}; the word help lists the commands"),
    }
    ExitCode::from(status(&outcome))
}
