//! That `sys` declares what the C header declares: the same calls in the same order, with the same parameters.

fn text(name: &str) -> String {
    let path = format!("{}/{name}", env!("CARGO_MANIFEST_DIR"));
    std::fs::read_to_string(&path).unwrap_or_else(|error| panic!("{path}: {error}"))
}

/// A C type in Rust.
fn kind(c: &str) -> &str {
    match c {
        "double" => "f64",
        "uint32_t" => "u32",
        "uint8_t" => "u8",
        "size_t" => "usize",
        "bool" => "bool",
        other => panic!("the type {other} is not known"),
    }
}

/// A C parameter in Rust: an array of fixed length is a pointer to one.
fn parameter(c: &str) -> String {
    let c = c.replace("restrict ", "");
    let (reads, rest) = c.trim().strip_prefix("const ").map_or((false, c.trim()), |rest| (true, rest));
    let pointer = if reads { "*const" } else { "*mut" };
    let (of, name) = rest.split_once(' ').expect("a type and a name");
    if let Some(name) = name.strip_prefix('*') {
        return format!("{name}: {pointer} {}", kind(of));
    }
    match name.split_once('[') {
        Some((name, length)) => format!("{name}: {pointer} [{}; {}]", kind(of), length.trim_end_matches(']')),
        None => format!("{name}: {}", kind(of)),
    }
}

/// The declarations of the header, as Rust would have them.
fn declared_in_c(header: &str) -> Vec<String> {
    let code: String = header.split("*/").filter_map(|part| part.split("/*").next()).collect();
    let declarations = code.split(';').filter_map(|part| Some(part.get(part.rfind("\n\n")? + 2..)?.trim()));
    let calls = declarations.filter(|part| part.contains(" wes_"));
    let in_rust = calls.map(|call| {
        let (head, parameters) = call.split_once('(').expect("parameters");
        let (answer, name) = head.split_once(' ').expect("an answer and a name");
        let parameters: Vec<String> = parameters.trim_end_matches(')').split(',').map(parameter).collect();
        format!("{name}({}) -> {}", parameters.join(", "), kind(answer))
    });
    in_rust.collect()
}

/// The declarations of `sys`, each on one line.
fn declared_in_rust(source: &str) -> Vec<String> {
    let code: Vec<&str> = source.lines().map(str::trim).filter(|line| !line.starts_with("//")).collect();
    let code = code.join(" ").replace("( ", "(").replace(", )", ")");
    code.split("pub fn ").skip(1).filter_map(|part| Some(part[..part.find(" -> ")? + part[part.find(" -> ")?..].find(';')?].to_owned())).collect()
}

#[test]
fn the_same_calls() {
    let (c, rust) = (declared_in_c(&text("../c/wesalondo.h")), declared_in_rust(&text("src/sys.rs")));
    assert!(c.len() >= 34, "calls of the header: {c:#?}");
    assert_eq!(rust, c);
}
