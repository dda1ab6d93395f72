// What the text vectors hold, in counts.

use std::collections::BTreeMap;
use std::fmt;

use super::Group;
use crate::stages::Build;
use crate::text::answer;

#[derive(Default)]
pub struct Summary {
    /// Texts by group.
    pub groups: Vec<(&'static str, usize)>,
    /// Texts by the answer: bad, refused by each row, components.
    pub bad: usize,
    pub refused: BTreeMap<u32, usize>,
    pub answered: usize,
    /// Answers without a component.
    pub none: usize,
    /// The longest text and the longest answer, in bytes.
    pub longest: [usize; 2],
}

impl Summary {
    pub fn of(groups: &[Group]) -> Summary {
        let mut summary = Summary::default();
        for group in groups {
            summary.groups.push((group.name, group.texts.len()));
            group.texts.iter().for_each(|text| summary.add(text));
        }
        summary
    }

    pub fn texts(&self) -> usize {
        self.groups.iter().map(|(_, count)| count).sum()
    }

    fn add(&mut self, text: &[u8]) {
        let said = answer(text, Build::Ruled);
        let longest = [self.longest[0].max(text.len()), self.longest[1].max(said.len())];
        self.longest = longest;
        let words: Vec<&str> = said.split_whitespace().collect();
        match words[0] {
            "bad" => self.bad += 1,
            "refused" => {
                let row = words[1].parse().expect("a row");
                *self.refused.entry(row).or_default() += 1;
            }
            _ => {
                self.answered += 1;
                self.none += (words[1] == "0") as usize;
            }
        }
    }
}

impl fmt::Display for Summary {
    fn fmt(&self, f: &mut fmt::Formatter<'_>) -> fmt::Result {
        let groups = self.groups.iter().map(|(name, count)| format!("{name} {count}"));
        writeln!(f, "texts: {}: {}", self.texts(), groups.collect::<Vec<_>>().join(", "))?;
        writeln!(f, "  bad: {}", self.bad)?;
        self.refused.iter().try_for_each(|(row, count)| writeln!(f, "  refused {row}: {count}"))?;
        writeln!(f, "  answered: {}, of which {} without a component", self.answered, self.none)?;
        let [text, answer] = self.longest;
        writeln!(f, "  longest text {text} bytes, longest answer {answer} bytes")
    }
}
