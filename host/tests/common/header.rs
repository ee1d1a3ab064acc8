//! include/girderbasil.h, read as text.

pub const HEADER: &str = include_str!("../../../include/girderbasil.h");

/// The words of a text that satisfy a test, each once.
pub fn words(text: &'static str, wanted: fn(&str) -> bool) -> Vec<&'static str> {
    let mut words: Vec<&str> = text
        .split(|letter: char| !letter.is_ascii_alphanumeric() && letter != '_')
        .filter(|word| wanted(word))
        .collect();
    words.sort_unstable();
    words.dedup();
    words
}

/// The functions that the header declares, which are the library's.
pub fn functions() -> Vec<&'static str> {
    named_functions(|line| !line.starts_with(OWN))
}

/// The functions that the header has itself.
pub fn inline_functions() -> Vec<&'static str> {
    named_functions(|line| line.starts_with(OWN))
}

/// What a function of the header's own begins with.
pub const OWN: &str = "static girderbasil_inline ";

/// Words that an opening bracket follows, on lines of a kind.
fn named_functions(wanted: fn(&str) -> bool) -> Vec<&'static str> {
    let lines = HEADER.lines().filter(|line| !line.starts_with([' ', '#']));
    let mut functions: Vec<&str> = lines
        .filter(|line| wanted(line))
        .filter_map(|line| line.split_once('(')?.0.split_whitespace().last())
        .map(|word| word.trim_start_matches('*'))
        .filter(|word| word.starts_with("girderbasil_") && *word != "girderbasil_assert")
        .collect();
    functions.sort_unstable();
    functions
}

/// What the header asserts of its structs: each one's size, and where its fields begin.
pub fn layouts() -> Vec<String> {
    let asserted = HEADER
        .lines()
        .filter_map(|line| line.strip_prefix("girderbasil_assert(")?.strip_suffix(");"));
    asserted
        .map(|fact| fact.replace("sizeof(", "size of ").replace("offsetof(", ""))
        .map(|fact| fact.replace(", ", ".").replace(") ==", " ="))
        .collect()
}
