//! usbhs: packets on the card, configuration descriptors, channels, visits and recorded lists of calls, over the
//! proved archives.

use std::ffi::OsString;
use std::process::ExitCode;

use usbhs::args::{usage, Args};
use usbhs::json::Json;
use usbhs::output::Output;
use usbhs::{card, channels, coding, descriptor, replay, visits, Done, Failure};

const HELP: &str = "\
usbhs: the readout's tool, over the proved calls of usbhs.h and usbhs_survey.h

  usbhs card check IMAGE                  blocks that are good, dropped and why; packets by endpoint; losses;
                                          where the stream ends, and what lies behind it
  usbhs card list IMAGE                   a line for each packet and record
  usbhs card extract IMAGE                the packets' bytes
      --csv, --samples                    a line for each packet, or 16-bit sample
      --interpolate                       microframes between records too (list, --csv, --samples)
      --out FILE                          into this file
  usbhs card picture IMAGE --svg FILE     samples over time, with and without the records
      --speed V, --every D, --title T     in metres, at V metres a second; a line every D; a title
      of all four: --endpoint N           of this endpoint alone
      --blocks N                          the stream has so many blocks
      --recorder N                        the recorder's endpoint: 15, if not said; 0 where there is none
      --cut                               leaves out bytes behind the last whole block
      --quiet                             no progress on standard error
  usbhs descriptor show FILE              the endpoints of a configuration descriptor
  usbhs descriptor preview FILE           what allocating them on a board would give, buffer by buffer
      --size S, --count N                 the board's buffers: 24 of 64 bytes, if not said
  usbhs descriptor write FILE             the endpoints written back as one interface
      --hex, --out FILE                   as hexadecimal digits; into this file
  usbhs channels FILE                     the best set of channels for the bus time left
      --in-use N, --budget B              byte-times in use, sets to look at: 0 and 65,536, if not said
  usbhs visits A B C D                    arrivals C to D microframes apart, visits A to B apart
  usbhs coding BITS                       whether samples of so many bits can be mistaken for a slot's marks
      --signed, --left, --offset          signed; left-justified in 16 bits; counted from 0x8000
      --big-endian                        highest byte first
  usbhs replay LIST                       a recorded list of calls as a timeline
      --svg FILE, --all                   as a picture too; every event in words
  usbhs replay --trace TRACE              a device's trace: a ring read by a debugger, or a card that has it
      --pcap FILE                         its tokens for Wireshark

A FILE, IMAGE or LIST that is - is standard input. --json: for programs. --version; --help or help: this text.
A descriptor is bytes, or text with two hexadecimal digits a byte.
A channel is a line: NAME MAXIMUM CHARGE.
Exit status: 0 well; 1 the answer is no (blocks were dropped, a stream's end is not certain, a board or
fifteen slots do not do, a coding can be hit, a recorded answer is not the port's); 2 a bad command line
or input.
";

fn run(words: Vec<OsString>) -> Done<bool> {
    let mut args = Args::new(words);
    let mut out = Output::standard();
    let json = args.flag("--json");
    let (help, version) = (args.flag("--help") | args.flag("-h"), args.flag("--version") | args.flag("-V"));
    if help && json {
        return usage("--help has no --json");
    }
    if help {
        out.write(HELP.as_bytes())?;
        return out.finish().map(|()| true);
    }
    if version {
        args.end()?;
        let number = env!("CARGO_PKG_VERSION");
        let text = match json {
            true => Json::Object(vec![("version", number.into())]).to_string(),
            false => format!("usbhs {number}"),
        };
        out.write(format!("{text}\n").as_bytes())?;
        return out.finish().map(|()| true);
    }
    if args.is_empty() && !json {
        return Err(Failure::Usage(format!("a command is missing\n\n{HELP}")));
    }
    let well = match args.word("a command")?.as_str() {
        "card" => card::run(args, json, &mut out),
        "descriptor" => descriptor::run(args, json, &mut out),
        "channels" => channels::run(args, json, &mut out),
        "visits" => visits::run(args, json, &mut out),
        "coding" => coding::run(args, json, &mut out),
        "replay" => replay::run(args, json, &mut out),
        "help" if json => usage("help has no --json"),
        "help" => {
            args.end()?;
            out.write(HELP.as_bytes()).map(|()| true)
        }
        other => usage(format!("{other} is no command")),
    }?;
    out.finish()?;
    Ok(well)
}

fn main() -> ExitCode {
    match run(std::env::args_os().skip(1).collect()) {
        Ok(true) => ExitCode::SUCCESS,
        Ok(false) => ExitCode::from(1),
        Err(Failure::Closed) => ExitCode::SUCCESS,
        Err(Failure::Usage(words)) => {
            eprintln!("usbhs: {words}\nusbhs --help says what there is");
            ExitCode::from(2)
        }
        Err(Failure::Input(words)) => {
            eprintln!("usbhs: {words}");
            ExitCode::from(2)
        }
    }
}
