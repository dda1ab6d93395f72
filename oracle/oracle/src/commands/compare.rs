// oracle compare COUNT SEED: both builds of the original beside each other on generated frames.

use oracle::command::{count_and_seed, Outcome};
use oracle::compare::{compare, Difference, Row, Table, SIDES, STAGES};

const HEAD: [&str; 13] = [
    "kind",
    "frames",
    "refused",
    "quads",
    "drop1",
    "drop2",
    "drop3",
    "comps",
    "letter",
    "narrow",
    "d-letter",
    "d-narrow",
    "d-outside",
];

fn line(words: &[String]) {
    let cells: Vec<String> = words.iter().map(|w| format!("{w:>10}")).collect();
    println!("{}", cells.join(" "));
}

fn numbers(row: &Row) -> [usize; 12] {
    let [drop1, drop2, drop3] = row.dropped;
    [
        row.frames,
        row.refused,
        row.quads,
        drop1,
        drop2,
        drop3,
        row.components,
        row.letter,
        row.narrow,
        row.differ_letter,
        row.differ_narrow,
        row.differ_outside,
    ]
}

fn print_table(table: &Table) {
    line(&HEAD.map(String::from));
    let mut sum = [0; 12];
    for (kind, row) in &table.rows {
        let numbers = numbers(row);
        let words: Vec<String> = numbers.iter().map(usize::to_string).collect();
        line(&[vec![kind.to_string()], words].concat());
        sum.iter_mut().zip(numbers).for_each(|(s, n)| *s += n);
    }
    line(&[vec!["all".to_string()], sum.iter().map(usize::to_string).collect()].concat());
}

fn print_notes(table: &Table) {
    let first: Vec<String> =
        STAGES.iter().zip(table.first).map(|(stage, n)| format!("{stage} {n}")).collect();
    println!("first stage to part: {}", first.join(", "));
    println!("frames whose components part: {}", table.answers);
    println!("refusals not as the damage called for: {}", table.wrong_refusals);
    println!(
        "the documents' words beside the ruled build: {} frames, {} differ",
        table.worded, table.worded_differ
    );
    print_first("words", &table.worded_first);
    let [few_quads, unlabelled, few_lone, kept] = table.fates;
    println!(
        "their groups: {few_quads} with too few quads, {unlabelled} without a labelling, \
         {few_lone} with too few lone corners, {kept} kept"
    );
    let [second, other] = table.by_rule_2;
    println!("frames by rule 2 of spreads: {second}, with other components by rule 1: {other}");
    print_first("smallest out of scope with another answer", &table.smallest_outside);
    match &table.in_scope {
        None => println!("no difference in scope"),
        Some(d) if d.letter => print_first("letter and narrow", &table.in_scope),
        Some(_) => print_first("narrow only", &table.in_scope),
    }
}

/// Shows a frame on which two runs part, as text where it fits.
fn print_first(what: &str, difference: &Option<Difference>) {
    if let Some(d) = difference {
        println!("difference ({what}): frame {}, {}, at {}", d.number, d.kind, d.stage);
        print!("{}", d.text.as_deref().unwrap_or("(too large for a text)\n"));
    }
}

pub fn run(args: &[String]) -> Outcome {
    let (count, seed) = count_and_seed(args)?;
    let table = compare(&SIDES, count, seed);
    print_table(&table);
    print_notes(&table);
    Ok(table.same())
}
