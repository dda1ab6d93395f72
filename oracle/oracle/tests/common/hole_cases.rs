// The cases about holes, by what is known of their components.

use super::holes::Sheet;
use frame::Component;
use oracle::demand;
use oracle::stages::Build;
use oracle::text::read;
use oracle::vectors::texts::text_groups;
use oracle::vectors::{frames, labels, OverQuads, Vector};

/// The components of a case with the holes that its stored answer has.
pub type Answered = (Vec<Sheet>, Vec<u32>);

/// The components that some quads gave, with what several corners claim in each. Components stand
/// by their lowest quads, as groups do; a kept one has the listed corners of its group.
fn answered(quads: &[[u32; 4]], found: &[Component]) -> Answered {
    let mut groups = demand::groups(quads).into_iter();
    let sheet = |component: &Component| {
        let own = |group: &Vec<usize>| match component.entries.first() {
            Some(entry) => group.iter().any(|&q| quads[q].contains(&entry.corner)),
            None => true,
        };
        let group = groups.find(own).expect("the component's group");
        let listed = component.entries.iter().map(|entry| (entry.u, entry.v)).collect();
        Sheet { listed, contested: demand::contested(quads, &group) }
    };
    let sheets = found.iter().map(sheet).collect();
    (sheets, found.iter().map(|component| component.holes).collect())
}

fn label_case(case: labels::Case) -> Option<Answered> {
    case.answer().result.ok()?;
    let quads = case.records();
    let found = plain::label(&quads, case.least_quads, case.least_corners);
    Some(answered(&quads, &found))
}

fn frame(frame: &frame::Frame) -> Answered {
    let stages = Build::Ruled.run(frame);
    answered(&stages.scale, &stages.components)
}

fn texts() -> Vec<Vec<u8>> {
    let groups = text_groups().into_iter();
    groups.filter(|group| group.name == "holes").flat_map(|group| group.texts).collect()
}

/// The accepted cases about holes of each kind by a letter: labels, frames, texts.
pub fn vectors() -> [(char, Vec<Answered>); 3] {
    let frames = frames::hole_cases().into_iter().filter(|case| case.answer().result.is_ok());
    [
        ('l', labels::hole_cases().into_iter().filter_map(label_case).collect()),
        ('f', frames.map(|case| frame(&case.frame)).collect()),
        ('t', texts().iter().map(|text| frame(&read(text).expect("a sound text"))).collect()),
    ]
}
