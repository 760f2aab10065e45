//! Calls, structs and numbers are declared as in `jwtproved.h`. The result of a call with another declaration is undefined, and another
//! number would select another text.

mod repository;

use std::collections::BTreeMap;

const DECLARED: &str = include_str!("../src/library/declared.rs");
const STATUSES: &str = include_str!("../src/status.rs");

fn header() -> String {
    repository::file("packages/c/include/jwtproved.h")
}

/// Returns the types of the parameters of each call after such a head, and what follows them.
fn calls<'a>(text: &'a str, head: &str, type_of: fn(&str) -> String) -> BTreeMap<&'a str, Vec<String>> {
    let call = |it: &'a str| {
        let (name, rest) = it.split_once('(')?;
        let (parameters, rest) = rest.split_once(')')?;
        let types = parameters.split(',').map(str::trim).filter(|it| !it.is_empty()).map(type_of);
        Some((name, types.chain([rest.split_once(';')?.0.trim().to_string()]).collect()))
    };
    text.split(head).skip(1).filter_map(call).collect()
}

fn of_rust(parameter: &str) -> String {
    parameter.rsplit(": ").next().unwrap_or_default().to_string()
}

/// Returns the type of a parameter of C, as Rust writes it.
fn of_c(parameter: &str) -> String {
    let name = parameter.rsplit([' ', '*']).next().unwrap_or_default();
    let kind = match parameter[..parameter.len() - name.len()].trim() {
        "const char *" | "const uint8_t *" => "*const u8",
        "char *" | "uint8_t *" => "*mut u8",
        "size_t *" => "*mut usize",
        "uint32_t *" => "*mut u32",
        "struct jwt_handle *" => "*mut Handle",
        "struct jwt_key_info *" => "*mut KeyInfo",
        "struct jwt_verdict *" => "*mut Verdict",
        "size_t" => "usize",
        "uint32_t" => "u32",
        "uint64_t" => "u64",
        other => other,
    };
    kind.to_string()
}

#[test]
fn calls_of_the_library() {
    let header = header();
    let mut its = calls(&header, "\nenum jwt_status ", of_c);
    its.values_mut().filter_map(|it| it.last_mut()).for_each(|it| *it = "-> u32".to_string());
    its.extend(calls(&header, "\nvoid ", of_c));
    its.extend(calls(&header, "\nuint32_t ", of_c));
    its.entry("jwt_algorithm").and_modify(|it| *it.last_mut().unwrap() = "-> u32".to_string());
    let ours = calls(DECLARED, "\n    pub fn ", of_rust);
    assert!(ours.len() > 20 && ours.len() == DECLARED.matches("    pub fn jwt_").count(), "{}", ours.len());
    for (name, types) in ours {
        assert_eq!(its.get(name), Some(&types), "{name}");
    }
}

/// Returns the members of a struct and their types, as Rust writes them.
fn members(text: &str, head: &str, of_line: fn(&str) -> Option<(String, String)>) -> Vec<(String, String)> {
    text.split_once(head).unwrap().1.split_once("\n}").unwrap().0.lines().filter_map(of_line).collect()
}

#[test]
fn members_of_structs() {
    fn of_c_line(line: &str) -> Option<(String, String)> {
        let declared = line.trim().strip_suffix(';')?;
        Some((declared.rsplit(' ').next()?.to_string(), of_c(declared)))
    }
    fn of_rust_line(line: &str) -> Option<(String, String)> {
        let (name, kind) = line.trim().strip_prefix("pub ")?.strip_suffix(',')?.split_once(": ")?;
        Some((name.to_string(), kind.to_string()))
    }
    for (its, ours, count) in
        [("struct jwt_key_info {", "pub struct KeyInfo {", 3), ("struct jwt_verdict {", "pub struct Verdict {", 8)]
    {
        let ours = members(DECLARED, ours, of_rust_line);
        assert_eq!((ours.len(), &ours), (count, &members(&header(), its, of_c_line)));
    }
}

/// Returns the names and the numbers of lines such as `pub const OK: u32 = 0;` and `Text = 1,` within the text.
fn numbers(text: &str) -> Vec<(String, String)> {
    let of_line = |line: &str| {
        let (name, number) = line.trim().trim_end_matches([',', ';']).split_once(" = ")?;
        let name = name.trim_start_matches("pub const ").trim_end_matches(": u32");
        number.parse::<u32>().ok().map(|_| (name.to_uppercase(), number.to_string()))
    };
    text.lines().filter_map(of_line).collect()
}

#[test]
fn numbers_of_the_library() {
    let header = header();
    let of_enum = |name: &str| {
        let (_, rest) = DECLARED.split_once(&format!("pub enum {name} {{")).unwrap();
        numbers(rest.split_once('}').unwrap().0)
    };
    let of = of_enum("Of").into_iter().map(|(name, number)| (format!("OF_{name}"), number));
    let all: Vec<_> = [numbers(STATUSES), of_enum("Source"), of_enum("Part")].concat().into_iter().chain(of).collect();
    assert!(all.len() > 40, "{}", all.len());
    for (name, number) in all {
        let line = format!("JWT_{name} = {number}");
        assert!(header.lines().any(|it| it.trim().trim_end_matches(',') == line), "{line}");
    }
    for line in ["#define JWT_ALL SIZE_MAX", "#define JWT_CLAIM_IAT UINT32_MAX"] {
        assert!(header.contains(line), "{line}");
    }
}
