// The form that the vectors of stages, filters and labels share: words in the data files, and the
// lines of an answer.

use crate::judge::Refusal;

/// The words of floats.
pub fn bits(list: &[f32]) -> Vec<u32> {
    list.iter().map(|x| x.to_bits()).collect()
}

/// A list of words that no call writes.
pub fn untouched(length: usize) -> Vec<u32> {
    (0..length as u32).map(|i| 70_000 + i.min(4)).collect()
}

/// Makes a list longer or shorter, and never shorter than nothing.
pub fn resize<T: Copy>(list: &mut Vec<T>, by: i32, with: T) {
    let length = list.len() as i32 + by;
    list.resize(length.max(0) as usize, with);
}

/// The float some steps further in the order of bits.
pub fn moved(x: f32, steps: i32) -> f32 {
    f32::from_bits(x.to_bits().wrapping_add(steps as u32))
}

/// Length, given, fill, then the words given. Two or more equal words at the end are a fill.
pub fn add_list(words: &mut Vec<u32>, list: &[u32]) {
    let last = list.last().copied().unwrap_or(0);
    let run = list.iter().rev().take_while(|&&word| word == last).count();
    let (given, fill) = if run > 1 { (list.len() - run, last) } else { (list.len(), 0) };
    words.extend([list.len() as u32, given as u32, fill]);
    words.extend(&list[..given]);
}

/// The shortest front of a list that gives it when it is said over and over.
pub fn said_over(list: &[u32]) -> &[u32] {
    let gives = |size: &usize| list[*size..].iter().zip(list).all(|(word, again)| word == again);
    let size = (1..=list.len()).find(gives).unwrap_or(0);
    &list[..size]
}

/// The words as text: eight digits each, a blank between, a line feed after the last.
pub fn text(words: &[u32]) -> String {
    let digits: Vec<String> = words.iter().map(|word| format!("{word:08X}")).collect();
    digits.join(" ") + "\n"
}

/// The line of a refusal.
pub fn refused(refusal: &Refusal) -> String {
    let fields: String = refusal.fields().map(|field| format!(" {field:08X}")).collect();
    format!("refused{fields}")
}

/// Each longest run of equal words as its length and the word.
pub fn runs(list: &[u32]) -> String {
    let runs = list.chunk_by(|a, b| a == b);
    let shown: Vec<String> = runs.map(|run| format!("{}*{}", run.len(), run[0])).collect();
    shown.join(" ")
}
