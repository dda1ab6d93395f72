// oracle examples DIR: the example frames as texts, each with its answer beside it.

use oracle::command::Outcome;
use oracle::examples::write_examples;

pub fn run(args: &[String]) -> Outcome {
    let folder = &args[0];
    write_examples(folder.as_ref()).map_err(|e| format!("{folder}: {e}"))?;
    Ok(true)
}
