//! incident LIST [FOLDER]: the same host traffic through the unchanged Rust and through the port, both exports
//! through the card, the flat-topped samples counted. Into the folder: both cards and the picture.

use std::path::Path;
use std::process::ExitCode;

use pictures::{incident, picture};

fn run() -> Result<(), String> {
    let mut words = std::env::args().skip(1);
    let list = words.next().ok_or("incident LIST [FOLDER]")?;
    let text = std::fs::read_to_string(&list).map_err(|e| format!("{list}: {e}"))?;
    let run = incident::run(&text).map_err(|e| format!("{list}: {e}"))?;
    print!("{}", run.told());
    let Some(folder) = words.next() else { return Ok(()) };
    let put = |name: &str, bytes: &[u8]| {
        let path = Path::new(&folder).join(name);
        std::fs::write(&path, bytes).map_err(|e| format!("{}: {e}", path.display()))
    };
    std::fs::create_dir_all(&folder).map_err(|e| format!("{folder}: {e}"))?;
    put("rust.card", &run.rust.card)?;
    put("port.card", &run.port.card)?;
    put("incident.svg", picture::svg(&run).as_bytes())?;
    println!("\n{folder}: incident.svg, rust.card, port.card");
    Ok(())
}

fn main() -> ExitCode {
    pictures::ended("incident", run())
}
