// The program: picks a command by its name.

mod commands;

use oracle::command::{program, Command};
use std::process::ExitCode;

const HELP: &str = "\
oracle gridlabel [plain|ruled] answer to a gridlabel text on standard input (ruled if not said)
oracle label LEASTQUADS LEASTCORNERS [CORNERS]
                               labelling alone of a quad list on standard input
oracle frames KIND SEED COUNT [DIR]
                               generated gridlabel texts, to standard output or into DIR
oracle quads KIND SEED COUNT DIR
                               generated quad lists with arguments and answers, into DIR
oracle compare COUNT SEED      both builds side by side on generated frames
oracle demand COUNT SEED       the original's walk beside document 01's third demand
oracle gap COUNT SEED          gap between document 01's numbers and the original's
oracle vectors numbers DIR     vectors of the number calls, written into DIR
oracle vectors stages DIR      vectors of axis cache, classes and quads, written into DIR
oracle vectors filters DIR     vectors of the filters, written into DIR
oracle vectors labels DIR      vectors of the labelling, written into DIR
oracle vectors frames DIR      vectors of the whole frame, written into DIR
oracle vectors texts DIR       vectors of the program, written into DIR
oracle examples DIR            the example frames as texts with their answers, written into DIR
oracle help                    this list
A comparison that finds a difference ends with status 1; no words, or words that cannot be read, with status 2.
Document 01 is the customer's paper with the rules that the port follows; docs/GUIDE.md has what a user needs of it.
";

const COMMANDS: [Command; 9] = [
    ("gridlabel", 0..=1, commands::gridlabel::run),
    ("label", 2..=3, commands::label::run),
    ("frames", 3..=4, commands::frames::run),
    ("quads", 4..=4, commands::quads::run),
    ("compare", 2..=2, commands::compare::run),
    ("demand", 2..=2, commands::demand::run),
    ("gap", 2..=2, commands::gap::run),
    ("vectors", 2..=2, commands::vectors::run),
    ("examples", 1..=1, commands::examples::run),
];

fn main() -> ExitCode {
    program(&COMMANDS, HELP)
}
