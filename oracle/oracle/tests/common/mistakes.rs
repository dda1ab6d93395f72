// What the tests of mistakes share.

pub type Mistake<R> = (&'static str, fn(&mut R));

/// Rules with a mistake, and its name.
pub fn wrong<R>(name: String, mut rules: R, make: impl FnOnce(&mut R)) -> (String, R) {
    make(&mut rules);
    (name, rules)
}

/// Rules with a mistake give another answer to some case.
pub fn is_told<R, C, A: PartialEq>(
    (name, wrong): &(String, R),
    cases: &[(C, A)],
    answer: impl Fn(&R, &C) -> A,
) {
    let told = cases.iter().filter(|(case, right)| answer(wrong, case) != *right).count();
    println!("{name}: {told} of {}", cases.len());
    assert!(told > 0, "{name} passes for right");
}

/// Each mistake in the rules gives another answer to some case.
pub fn each_is_told<R, C, A: PartialEq>(
    right: impl Fn() -> R,
    mistakes: &[Mistake<R>],
    cases: &[(C, A)],
    answer: impl Fn(&R, &C) -> A,
) {
    for (name, make) in mistakes {
        is_told(&wrong(name.to_string(), right(), make), cases, &answer);
    }
}
