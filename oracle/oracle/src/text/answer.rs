// The program's answer to a text.

use super::read::read;
use crate::judge::{judge, Refusal};
use crate::stages::Build;
use frame::Component;

/// The lines of a successful answer.
pub fn print_components(components: &[Component]) -> String {
    let mut out = format!("components {}\n", components.len());
    for (number, component) in components.iter().enumerate() {
        let entries = component.entries.len();
        out += &format!("component {number} {entries} {}\n", component.holes);
        for entry in &component.entries {
            out += &format!("{} {} {}\n", entry.u, entry.v, entry.corner);
        }
    }
    out
}

/// The line of a refusal.
fn refused(refusal: &Refusal) -> String {
    let fields: String = refusal.fields().map(|field| format!(" {field}")).collect();
    format!("refused{fields}\n")
}

/// What gridlabel prints for a text.
pub fn answer(text: &[u8], build: Build) -> String {
    let frame = match read(text) {
        Ok(frame) => frame,
        Err(line) => return format!("bad {line}\n"),
    };
    match judge(&frame) {
        Some(refusal) => refused(&refusal),
        None => print_components(&build.run(&frame).components),
    }
}
