//! The examples of docs/TOOL.md: each command is run in desk/samples, and what it writes is what the page says.
//! With UPDATE_PAGE=1 the page is written anew instead.

use std::path::Path;
use std::process::Command;

const PAGE: &str = concat!(env!("CARGO_MANIFEST_DIR"), "/../../docs/TOOL.md");
const SAMPLES: &str = concat!(env!("CARGO_MANIFEST_DIR"), "/../samples");

/// What a command writes, to both outputs.
fn output(command: &str) -> String {
    let tool = Path::new(env!("CARGO_BIN_EXE_usbhs")).parent().unwrap();
    let path = format!("{}:{}", tool.display(), std::env::var("PATH").unwrap());
    let run = Command::new("sh")
        .args(["-c", &format!("{{ {command}\n}} 2>&1")])
        .env("PATH", path)
        .current_dir(SAMPLES)
        .output()
        .unwrap();
    String::from_utf8(run.stdout).unwrap()
}

/// The page with each command's true output behind it; how many there are.
fn run(page: &str) -> (String, usize) {
    let (mut text, mut inside, mut commands) = (String::new(), false, 0);
    for line in page.lines() {
        if line.starts_with("```") {
            inside = line == "```console";
        }
        let command = if inside { line.strip_prefix("$ ") } else { None };
        if !inside || line.starts_with("```") || command.is_some() {
            text += &format!("{line}\n");
        }
        if let Some(command) = command {
            text += &output(command);
            commands += 1;
        }
    }
    (text, commands)
}

#[test]
fn every_example_is_true() {
    let page = std::fs::read_to_string(PAGE).unwrap();
    let (now, commands) = run(&page);
    if std::env::var_os("UPDATE_PAGE").is_some() {
        std::fs::write(PAGE, &now).unwrap();
        return;
    }
    assert!(commands >= 15, "only {commands} examples");
    for (i, (is, says)) in now.lines().zip(page.lines()).enumerate() {
        assert_eq!(is, says, "docs/TOOL.md, line {}", i + 1);
    }
    assert!(now == page, "docs/TOOL.md");
}

#[test]
fn every_command_has_an_example() {
    let page = std::fs::read_to_string(PAGE).unwrap();
    for command in [
        "card check",
        "card list",
        "card extract",
        "card picture",
        "descriptor show",
        "descriptor preview",
        "descriptor write",
        "channels",
        "visits",
        "coding",
        "replay",
        "replay --trace",
    ] {
        assert!(page.contains(&format!("$ usbhs {command}")), "{command} has no example");
    }
}
