// The archive's calls are declared three times: in crates/abi/src/lib.rt with their contracts, in the header for C, and in src/raw.rs. Read
// as text, the three have the same functions with the same arguments in the same order, and the same answers field by field.

use ngeunsadok::*;
use std::collections::BTreeMap;
use std::fs::read_to_string;

/// An argument or a field: its type and its name. A list is one argument.
type Part = (String, String);

/// Functions and structs by name; a function's first part is its answer.
type Declared = BTreeMap<String, Vec<Part>>;

fn text(path: &str, comment: &str) -> String {
    let path = format!("{}/{path}", env!("CARGO_MANIFEST_DIR"));
    let text = read_to_string(&path).unwrap_or_else(|why| panic!("{path}: {why}"));
    let mut plain = String::new();
    for line in text.lines() {
        plain.push_str(line.split(comment).next().unwrap_or(""));
        plain.push('\n');
    }
    plain
}

/// What lies between the first `open` and the next `close` after it, and what follows.
fn between<'a>(text: &'a str, open: &str, close: &str) -> Option<(&'a str, &'a str)> {
    let inside = &text[text.find(open)? + open.len()..];
    let end = inside.find(close)?;
    Some((&inside[..end], &inside[end + close.len()..]))
}

/// Names are the same up to underscores and the header's prefix.
fn name(word: &str) -> String {
    word.trim().trim_start_matches("ngeunsadok_").replace('_', "").to_lowercase()
}

/// The parts of a list `name: type, name: type`, as Rattle and Rust write it.
fn parts(list: &str) -> Vec<Part> {
    let part = |part: &str| {
        let (called, kind) = part.split_once(':').unwrap_or_else(|| panic!("no type: {part}"));
        (kind.trim().to_string(), name(called.trim().trim_start_matches("pub ")))
    };
    list.split(',').filter(|part| !part.trim().is_empty()).map(part).collect()
}

/// The structs `pub struct Name { .. }` of a text.
fn structs(mut text: &str, into: &mut Declared) {
    while let Some((called, rest)) = between(text, "pub struct ", "{") {
        let (fields, rest) = rest.split_once('}').expect("the struct's end");
        into.insert(format!("struct {}", name(called)), parts(fields));
        text = rest;
    }
}

/// The functions of a text that begin with `mark`, their arguments made single by `lists`.
fn functions(mut text: &str, mark: &str, ends: &[char], lists: fn(Vec<Part>) -> Vec<Part>, into: &mut Declared) {
    while let Some((called, rest)) = between(text, mark, "(") {
        let (arguments, rest) = rest.split_once(')').expect("the arguments' end");
        let answer = rest.split(ends).next().unwrap_or("").replace("->", "").replace("ensures", "");
        let mut all = vec![(name(&answer), "answer".to_string())];
        all.extend(lists(parts(arguments)));
        into.insert(name(called), all);
        text = rest;
    }
}

/// Of a pointer and its count, the pointer as a list.
fn paired(parts: Vec<Part>) -> Vec<Part> {
    let mut single = Vec::new();
    let mut parts = parts.into_iter();
    while let Some((kind, called)) = parts.next() {
        let list = match kind.as_str() {
            "*const f32" => "&[f32]",
            "*const u32" => "&[u32]",
            "*mut f32" => "&mut [f32]",
            "*mut u32" => "&mut [u32]",
            _ => {
                single.push((kind, called));
                continue;
            }
        };
        assert_eq!(parts.next().map(|count| count.0).as_deref(), Some("usize"), "no count after {called}");
        single.push((list.to_string(), called));
    }
    single
}

fn rattle() -> Declared {
    let (text, mut declared) = (text("../crates/abi/src/lib.rt", "//"), Declared::new());
    structs(&text, &mut declared);
    functions(&text, "#[unsafe(no_mangle)]\npub extern \"C\" fn ", &['{', '\n'], |parts| parts, &mut declared);
    declared
}

fn raw() -> Declared {
    let (text, mut declared) = (text("src/raw.rs", "//"), Declared::new());
    let (records, calls) = text.split_once("extern \"C\"").expect("the calls");
    structs(records, &mut declared);
    functions(calls, "pub fn ", &[';'], paired, &mut declared);
    declared
}

/// A part as C writes it, `const float *x`, in the other form, `x: *const f32`.
fn from_c(part: &str) -> String {
    let (kind, called) = part.trim().rsplit_once([' ', '*']).unwrap_or_else(|| panic!("no type: {part}"));
    let pointer = part.contains('*');
    let plain = kind.replace("const ", "").replace("const", "").replace('*', "");
    let plain = match plain.trim() {
        "float" => "f32",
        "uint32_t" => "u32",
        "size_t" => "usize",
        other => other,
    };
    match (pointer, kind.contains("const")) {
        (false, _) => format!("{called}: {plain}"),
        (true, true) => format!("{called}: *const {plain}"),
        (true, false) => format!("{called}: *mut {plain}"),
    }
}

/// The header's structs and functions, up to what it defines for C alone.
fn header() -> Declared {
    let whole = text("../include/ngeunsadok.h", "\0");
    let mut plain = String::new();
    let mut rest = whole.as_str();
    while let Some((before, after)) = rest.split_once("/*") {
        plain.push_str(before);
        rest = after.split_once("*/").expect("the comment's end").1;
    }
    plain.push_str(rest);
    let (declarations, _) = plain.split_once("static inline").expect("what is for C alone");
    let mut declared = Declared::new();
    let mut text = declarations;
    while let Some((fields, rest)) = between(text, "typedef struct {", "}") {
        let (called, rest) = rest.split_once(';').expect("the struct's name");
        let fields: Vec<String> = fields.split(';').filter(|field| !field.trim().is_empty()).map(from_c).collect();
        declared.insert(format!("struct {}", name(called)), parts(&fields.join(",")));
        text = rest;
    }
    for statement in text.split(';').filter(|statement| statement.contains('(')) {
        let (head, arguments) = statement.split_once('(').expect("the arguments");
        let (answer, called) = head.trim().rsplit_once(' ').expect("the answer");
        let arguments: Vec<String> = arguments.trim().trim_end_matches(')').split(',').map(from_c).collect();
        let mut all = vec![(name(answer), "answer".to_string())];
        all.extend(paired(parts(&arguments.join(","))));
        declared.insert(name(called), all);
    }
    declared
}

#[test]
fn three_times_the_same() {
    let (rattle, raw, mut header) = (rattle(), raw(), header());
    assert!(rattle.len() >= 15, "nine functions and six answers at least: {:?}", rattle.keys());
    assert_eq!(rattle, raw);
    for own in ["struct params", "struct frame", "struct component", "struct entry"] {
        header.remove(own).unwrap_or_else(|| panic!("the header has no {own}"));
    }
    assert_eq!(rattle, header);
}

/// The header's numbers are the package's.
#[test]
fn the_same_limits() {
    let header = text("../include/ngeunsadok.h", "/*");
    let limits =
        [("MOST_CORNERS", MOST_CORNERS), ("MOST_HALF_EDGES", MOST_HALF_EDGES), ("MOST_QUADS", MOST_QUADS), ("STACK", STACK)];
    for (called, limit) in limits {
        let (number, _) = between(&header, &format!("#define NGEUNSADOK_{called} "), "\n").expect(called);
        assert_eq!(number.trim().parse(), Ok(limit), "{called}");
    }
}

#[test]
fn the_same_rules() {
    let header = text("../include/ngeunsadok.h", "/*");
    let rules =
        [("MISSING_INFORMATIVE", SpreadRule::MissingInformative), ("MISSING_UNINFORMATIVE", SpreadRule::MissingUninformative)];
    for (called, rule) in rules {
        let (number, _) = between(&header, &format!("NGEUNSADOK_{called} = "), "\n").expect(called);
        assert_eq!(number.trim_end_matches(',').parse(), Ok(rule.number()), "{called}");
    }
}
