//! The declarations against the headers: every exported call is declared, with the header's parameters.

use std::collections::BTreeMap;

/// Name, then parameters and answer as Rust types.
type Calls = BTreeMap<String, Vec<String>>;

fn c_type(parameter: &str) -> String {
    let of = match parameter {
        p if p.contains("uint8_t") => "u8",
        p if p.contains("uint16_t") => "u16",
        p if p.contains("uint32_t") => "u32",
        p if p.contains("usbhs_length") || p.contains("uint64_t") => "u64",
        p if p.contains("struct usbhs_channel") => "Channel",
        _ => "()",
    };
    match (parameter.contains('*') || parameter.contains('['), parameter.contains("const")) {
        (true, true) => format!("*const {of}"),
        (true, false) => format!("*mut {of}"),
        _ => of.into(),
    }
}

fn of_header(text: &str) -> Calls {
    let mut calls = Calls::new();
    for statement in text.split(';') {
        let Some(at) =
            statement.find("uint64_t usbhs_").or(statement.find("uint32_t usbhs_")).or(statement.find("void usbhs_"))
        else {
            continue;
        };
        if statement.contains("static inline") || statement.contains("return usbhs_") {
            continue;
        }
        // what stands in a comment or an enum before is cut off
        let prototype = statement[at..].replace('\n', " ");
        let Some((front, rest)) = prototype.split_once('(') else { continue };
        let (answer, name) = front.split_once(' ').unwrap();
        let parameters = rest.trim_end().trim_end_matches(')').split(',').map(c_type);
        calls.insert(name.trim().into(), parameters.chain([c_type(answer)]).collect());
    }
    calls
}

/// The last block of declarations, with the text's type names.
fn of_rust(text: &str) -> Calls {
    let alias: BTreeMap<&str, &str> = text
        .lines()
        .filter_map(|l| l.trim_start_matches("pub ").strip_prefix("type ")?.trim_end_matches(';').split_once(" = "))
        .collect();
    let plain = |t: &str| {
        let (pointer, of) = t.trim().rsplit_once(' ').unwrap_or(("", t.trim()));
        let mut of = of.to_string();
        while let Some(t) = alias.get(of.as_str()) {
            of = t.to_string();
        }
        let joined = format!("{pointer} {of}").trim().to_string();
        let (pointer, last) = joined.rsplit_once(' ').unwrap_or(("", &joined));
        format!("{pointer} {}", alias.get(last).unwrap_or(&last)).trim().to_string()
    };
    let block = text.rsplit("extern \"C\" {").next().unwrap();
    let mut calls = Calls::new();
    for line in block.split(';').filter_map(|l| l.trim().strip_prefix("pub fn ")) {
        let (name, rest) = line.split_once('(').unwrap();
        let (parameters, answer) = rest.rsplit_once(')').unwrap();
        let parameters = parameters.split(',').filter(|p| !p.trim().is_empty());
        let parameters = parameters.map(|p| plain(p.split_once(':').unwrap().1));
        let answer = answer.trim().strip_prefix("-> ").map_or("()".into(), plain);
        calls.insert(name.into(), parameters.chain([answer]).collect());
    }
    calls
}

fn compare(header: &str, source: &str, at_least: usize) {
    let (header, rust) = (of_header(header), of_rust(source));
    assert!(header.len() >= at_least, "{} prototypes", header.len());
    assert_eq!(header, rust);
}

#[test]
fn driver() {
    compare(include_str!("../../../include/usbhs.h"), include_str!("../src/exported.rs"), 38);
}

#[test]
fn survey() {
    let source = concat!(include_str!("../src/exported.rs"), include_str!("../src/exported_survey.rs"));
    compare(include_str!("../../../include/usbhs_survey.h"), source, 10);
}

/// Every refusal has words, and is an error.
#[test]
fn refusals() {
    use usbhs_port::Refusal;
    let error: &dyn core::error::Error = &Refusal::NoPacket;
    assert_eq!(error.to_string(), "refused (12): no packet waits");
    assert_eq!(Refusal::Row(40).to_string(), "refused (40): a row that this version has no name for");
}

/// The numbers that both have.
#[test]
fn numbers() {
    let header = include_str!("../../../include/usbhs.h");
    let number = |name: &str| -> usize {
        let line = header.lines().find(|l| l.starts_with(&format!("#define {name} "))).unwrap();
        line.rsplit(' ').next().unwrap().trim_end_matches('u').parse().unwrap()
    };
    assert_eq!(number("USBHS_STATE_LEN"), usbhs_port::STATE_LEN);
    assert_eq!(number("USBHS_TIME_LEN"), usbhs_port::TIME_LEN);
    assert_eq!(number("USBHS_MOST_WAKES"), usbhs_port::MOST_WAKES);
    assert_eq!(number("USBHS_NUMBERS_LEN"), usbhs_port::NUMBERS_LEN);
    assert_eq!(number("USBHS_BUS"), usbhs_port::Task::Bus.number());
    // the version, and the symbol by which an archive of another one does not link
    assert!(header.contains(&format!("#define USBHS_VERSION \"{}\"\n", env!("CARGO_PKG_VERSION"))));
    let version = env!("CARGO_PKG_VERSION").replace('.', "_");
    let symbol = format!("usbhs_{version}_state_{}", usbhs_port::STATE_LEN);
    assert!(header.contains(&format!("#define USBHS_ARCHIVE {symbol}\n")));
    assert!(include_str!("../src/exported.rs").contains(&format!("#[link_name = \"{symbol}\"]")));
}
