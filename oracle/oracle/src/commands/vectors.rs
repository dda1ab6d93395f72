// oracle vectors numbers DIR, and the same for the other kinds: the vectors of the calls and of the
// program.

use oracle::command::Outcome;
use oracle::vectors::KINDS;

pub fn run(args: &[String]) -> Outcome {
    let (kind, folder) = (&args[0], &args[1]);
    let names = KINDS.map(|(name, _)| name).join(", ");
    let found = KINDS.iter().find(|(name, _)| name == kind);
    let (_, write) = found.ok_or_else(|| format!("no vectors {kind:?}; there are {names}"))?;
    print!("{}", write(folder.as_ref()).map_err(|e| format!("{folder}: {e}"))?);
    Ok(true)
}
