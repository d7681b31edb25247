//! The tables of refusals in README.md and in include/muosleap.h say what the crate says, word for word, and the header declares the
//! functions that the crate calls.

use muosleap::REFUSALS;

const README: &str = include_str!("../../../README.md");
const HEADER: &str = include_str!("../../../include/muosleap.h");
const CROSSING: &str = include_str!("../src/c.rs");

#[test]
fn readme_says_what_the_crate_says() {
    let section = between(README, "\n## The refusals, and what to do about each\n", "\n## ");
    let said = section.lines().filter(|line| line.starts_with('|')).map(String::from);
    let head = ["| number | what is wrong | what to do |", "|---|---|---|"].map(String::from);
    let rows = REFUSALS.iter().map(|it| format!("| {} | {} | {} |", it.number(), it.reason(), it.advice()));
    same(said.collect(), head.into_iter().chain(rows).collect());
}

#[test]
fn header_says_what_the_crate_says() {
    // After the comment's margin a line has a number in five columns, or none where it goes on with the line before.
    let mut said: Vec<String> = Vec::new();
    for line in between(HEADER, "\n * Refusals\n", " */").lines() {
        let (number, text) = line.strip_prefix(" *").unwrap().split_at(5);
        match said.last_mut() {
            Some(before) if number.trim().is_empty() => *before += &format!(" {}", text.trim()),
            _ => said.push(format!("{} {}", number.trim(), text.trim())),
        }
    }
    same(said, REFUSALS.iter().map(|it| format!("{} {}", it.number(), it.reason())).collect());
}

#[test]
fn header_declares_what_the_crate_calls() {
    let said = HEADER.split("\nuint32_t ").skip(1).map(|text| text.split(");").next().unwrap());
    let said = said.map(|text| text.split_whitespace().collect::<Vec<_>>().join(" "));
    let ours = between(CROSSING, "\ncrossing! {\n", "\n}\n").split("fn ").skip(1).map(|text| {
        let (name, parameters) = text.split(");").next().unwrap().split_once('(').unwrap();
        let parameters = parameters.split(',').map(|parameter| in_c(parameter.trim().split_once(": ").unwrap()));
        format!("muosleap_{name}({}", parameters.collect::<Vec<_>>().join(", "))
    });
    same(said.collect(), ours.collect());
}

/// A parameter as the header has it.
fn in_c((name, kind): (&str, &str)) -> String {
    let number = |kind: &str| match kind {
        "usize" => "size_t".into(),
        "f32" => "float".into(),
        _ => format!("uint{}_t", &kind[1..]),
    };
    let (read_only, kind) = match (kind.strip_prefix("&mut "), kind.strip_prefix('&')) {
        (Some(kind), _) => ("", kind),
        (None, Some(kind)) => ("const ", kind),
        (None, None) => return format!("{} {name}", number(kind)),
    };
    match kind.strip_prefix('[').and_then(|kind| kind.strip_suffix(']')).map(|list| list.split_once("; ").ok_or(list)) {
        Some(Ok((kind, count))) => format!("{read_only}{} {name}[{count}]", number(kind)),
        Some(Err(kind)) => format!("{read_only}{} *{name}, size_t {name}_count", number(kind)),
        None => format!("{read_only}{} *{name}", number(kind)),
    }
}

/// What stands between two texts, the first of which stands once only.
fn between<'a>(text: &'a str, start: &str, end: &str) -> &'a str {
    let [_, after] = text.split(start).collect::<Vec<_>>()[..] else { panic!("{start:?} does not stand once") };
    after.split(end).next().unwrap()
}

/// Compares row by row, so that the first that differs is shown alone.
fn same(said: Vec<String>, ours: Vec<String>) {
    said.iter().zip(&ours).for_each(|(said, ours)| assert_eq!(said, ours));
    assert_eq!(said.len(), ours.len());
}
