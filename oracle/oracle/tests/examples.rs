// The example frames: what each shows, and that the folder of examples holds them.

use oracle::examples::examples;
use oracle::stages::Build;
use oracle::text::answer;
use std::fs;
use std::path::Path;

#[test]
fn what_they_show() {
    let heads: Vec<String> = examples()
        .iter()
        .map(|(_, text)| {
            let said = answer(text.as_bytes(), Build::Ruled);
            said.lines().take(2).collect::<Vec<_>>().join(", ")
        })
        .collect();
    let shown = ["component 0 4 0", "component 0 25 0", "component 0 24 1", "component 0 18 0"];
    assert_eq!(heads, shown.map(|component| format!("components 1, {component}")));
    for (name, text) in examples() {
        let [plain, ruled] = [Build::Plain, Build::Ruled].map(|b| answer(text.as_bytes(), b));
        assert_eq!(plain, ruled, "{name}");
    }
}

#[test]
fn the_folder() {
    let folder = Path::new(env!("CARGO_MANIFEST_DIR")).join("../../examples");
    let file = |name: &str| fs::read_to_string(folder.join(name)).unwrap();
    for (name, text) in examples() {
        assert_eq!(file(&format!("{name}.answer")), answer(text.as_bytes(), Build::Ruled));
        assert_eq!(file(name), text);
    }
}

#[test]
fn every_answer() {
    let folder = Path::new(env!("CARGO_MANIFEST_DIR")).join("../../examples");
    let mut met = 0;
    for entry in fs::read_dir(folder).unwrap() {
        let path = entry.unwrap().path();
        if path.extension().is_some_and(|end| end == "answer") {
            let text = fs::read(path.with_extension("")).unwrap();
            let said = answer(&text, Build::Ruled);
            assert_eq!(fs::read_to_string(&path).unwrap(), said, "{path:?}");
            met += 1;
        }
    }
    assert!(met >= examples().len());
}
