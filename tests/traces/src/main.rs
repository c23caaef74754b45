//! `traces bytes` turns a text into a trace, `traces text` a trace into a text, and `traces verdict` says what the model says of a trace.
//! Each reads standard input.

use std::io::{Read, Write};
use std::process::ExitCode;
use traces::{text, verdict};

const USAGE: &str = "traces bytes | traces text | traces verdict, over standard input";

fn input() -> Result<Vec<u8>, String> {
    let mut bytes = Vec::new();
    std::io::stdin().read_to_end(&mut bytes).map_err(|what| what.to_string())?;
    Ok(bytes)
}

fn output(command: Option<&str>) -> Result<Vec<u8>, String> {
    match command {
        Some("bytes") => text::to_bytes(&String::from_utf8(input()?).map_err(|_| "the input is no text".to_string())?),
        Some("text") => Ok(text::to_text(&input()?).into_bytes()),
        Some("verdict") => Ok(format!("{}\n", verdict(&input()?)).into_bytes()),
        _ => Err(USAGE.to_string()),
    }
}

fn main() -> ExitCode {
    let word = std::env::args().nth(1);
    let written =
        output(word.as_deref()).and_then(|bytes| std::io::stdout().write_all(&bytes).map_err(|what| what.to_string()));
    match written {
        Ok(()) => ExitCode::SUCCESS,
        Err(what) => {
            eprintln!("traces: {what}");
            ExitCode::FAILURE
        }
    }
}
