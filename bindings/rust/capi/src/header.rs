//! The header and this crate have the same structs, numbers and calls.
use hojzmated::Error;

const HEADER: &str = include_str!("../../../../include/hojzmated_pager.h");
const CORE: &str = include_str!("../../../../include/hojzmated.h");
const ABI: &str = include_str!("abi.rs");
const CALLS: &str = include_str!("lib.rs");

/// What stands between the first such words and the next ones after them, and the rest.
fn between<'a>(text: &'a str, begin: &str, end: &str) -> Option<(&'a str, &'a str)> {
    text.split_once(begin)?.1.split_once(end)
}

/// All that stands between such words.
fn all_between<'a>(mut text: &'a str, begin: &str, end: &str) -> Vec<&'a str> {
    let mut found = Vec::new();
    while let Some((one, rest)) = between(text, begin, end) {
        found.push(one);
        text = rest;
    }
    found
}

/// A header without its comments and its line ends.
fn bare(header: &str) -> String {
    let mut bare = String::new();
    for part in header.split("/*") {
        bare.push_str(part.split_once("*/").map_or(part, |(_, code)| code));
    }
    let lines = bare.lines().filter(|line| !line.starts_with('#'));
    lines.collect::<Vec<_>>().join(" ")
}

/// The type of C in Rust's words.
fn in_rust(c: &str) -> String {
    let c = c.trim();
    if let Some(target) = c.strip_suffix('*') {
        let target = target.trim();
        return match target.strip_prefix("const ") {
            Some(constant) => format!("*const {}", in_rust(constant)),
            None => format!("*mut {}", in_rust(target)),
        };
    }
    let c = c.strip_prefix("struct ").unwrap_or(c);
    let number = c.strip_suffix("_t").unwrap_or(c);
    match number {
        "void" => "c_void".into(),
        "char" => "c_char".into(),
        "int" => "c_int".into(),
        "size" => "usize".into(),
        _ => match number.strip_prefix("uint") {
            Some(bits) => format!("u{bits}"),
            None => match number.strip_prefix("int") {
                Some(bits) => format!("i{bits}"),
                None => c.into(),
            },
        },
    }
}

/// The type and the name of a declaration in C.
fn type_and_name(declaration: &str) -> (String, &str) {
    let declaration = declaration.trim();
    let at = declaration.rfind([' ', '*']).map_or(0, |at| at + 1);
    (in_rust(&declaration[..at]), &declaration[at..])
}

fn types_of(parameters: &str) -> String {
    let all = parameters.split(',').filter(|it| it.trim() != "void");
    all.map(|it| type_and_name(it).0)
        .collect::<Vec<_>>()
        .join(", ")
}

/// A field of a struct of C, as Rust has it.
fn field_in_rust(field: &str) -> String {
    let Some((result, callback)) = field.split_once("(*") else {
        let (its_type, name) = type_and_name(field);
        return format!("{name}: {its_type}");
    };
    let (name, parameters) = callback.split_once(")(").unwrap();
    let types = types_of(parameters.trim_end_matches(')'));
    let result = match result.trim() {
        "void" => String::new(),
        result => format!(" -> {}", in_rust(result)),
    };
    format!("{name}: Option<unsafe extern \"C\" fn({types}){result}>")
}

/// Words with one space between them, and no comma at the end of a list.
fn plain(text: &str) -> String {
    let words: Vec<_> = text.split_whitespace().collect();
    words.join(" ").replace(", )", ")").replace("( ", "(")
}

/// Each struct of the header has its fields here, in the same order and of the same types.
#[test]
fn structs() {
    let header = bare(HEADER);
    let there: Vec<String> = all_between(&header, "typedef struct ", "} hz_")
        .into_iter()
        .map(|found| {
            let (name, fields) = found.split_once(" {").unwrap();
            let fields = fields.split(';').filter(|it| !it.trim().is_empty());
            let fields: Vec<_> = fields.map(field_in_rust).collect();
            format!("{name} {{ {} }}", fields.join(", "))
        })
        .collect();
    let here: Vec<String> = all_between(ABI, "pub struct ", "\n}")
        .into_iter()
        .map(|it| plain(&format!("{} }}", it.replace("pub ", ""))).replace(", }", " }"))
        .map(|it| it.replace("*mut Pager", "*mut c_void"))
        .collect();
    assert_eq!(there, here);
    assert_eq!(here.len(), 7);
}

/// Each call of the header is here, in the same order and with the same types.
#[test]
fn calls() {
    let header = bare(HEADER);
    let there: Vec<String> = header
        .split([';', '}', '{'])
        .filter_map(|it| it.trim().split_once('('))
        .filter_map(|(before, parameters)| Some((before, parameters.strip_suffix(')')?)))
        .filter(|(before, _)| type_and_name(before).1.starts_with("hz_pager_"))
        .map(|(before, parameters)| {
            let before = before.trim_start_matches("HZ_MUST_CHECK ");
            let (result, name) = type_and_name(before);
            format!("{name}({}) -> {result}", types_of(parameters))
        })
        .collect();
    let here: Vec<String> = all_between(CALLS, "extern \"C\" fn ", " {\n")
        .into_iter()
        .filter(|it| it.starts_with("hz_"))
        .map(|it| {
            let (name, rest) = it.split_once('(').unwrap();
            let (parameters, result) = rest.split_once(')').unwrap();
            let types = parameters.split(',').filter_map(|it| it.split_once(": "));
            let types: Vec<_> = types.map(|(_, its_type)| its_type.trim()).collect();
            format!("{name}({}){result}", types.join(", "))
        })
        .collect();
    assert_eq!(there, here);
    assert_eq!(here.len(), 20);
}

/// The numbers of the headers that have names here.
#[test]
fn numbers() {
    let headers = format!("{HEADER}{CORE}");
    let mut count = 0;
    for constant in all_between(ABI, "pub const ", ";") {
        let (name, rest) = constant.split_once(": ").unwrap();
        let value = rest.split_once(" = ").unwrap().1;
        let value = value.replace("u64::MAX", "UINT64_MAX");
        let lines = [
            format!("    {name} = {value},"),
            format!("#define {name} {value}\n"),
            format!("#define {name} ({value})\n"),
        ];
        assert!(lines.iter().any(|line| headers.contains(line)), "{name}");
        count += 1;
    }
    assert_eq!(count, 41);
    let own = between(&headers, "enum hz_pager_refusal {", "}").unwrap().0;
    let how = between(&headers, "enum hz_how {", "}").unwrap().0;
    for line in own.lines().chain(how.lines()) {
        if let Some((name, _)) = line.split_once(" = ") {
            assert!(ABI.contains(&format!("pub const {}: ", name.trim())));
        }
    }
}

/// The crate of the pager gives its own refusals the numbers of the header.
#[test]
fn numbers_of_the_crate() {
    let own = [("DEADLOCK", Error::Deadlock), ("LOG_LOST", Error::LogLost)];
    for (name, error) in own {
        assert!(HEADER.contains(&format!("HZ_{name} = {},", error.number())));
    }
}
