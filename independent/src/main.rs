//! Answers the script that its one argument names, or else the script on standard input.

use std::io::{Read, Write};
use std::process::ExitCode;

use independent::script;

fn main() -> ExitCode {
    match answer() {
        Ok(()) => ExitCode::SUCCESS,
        Err(reason) => {
            eprintln!("independent: {reason}");
            ExitCode::FAILURE
        }
    }
}

fn answer() -> Result<(), String> {
    let octets = read_script()?;
    let text = String::from_utf8(octets).map_err(|error| format!("the script is no UTF-8: {error}"))?;
    let output = script::run(&text);
    let mut standard_output = std::io::stdout().lock();
    standard_output
        .write_all(output.as_bytes())
        .and_then(|()| standard_output.flush())
        .map_err(|error| format!("the output cannot be written: {error}"))
}

fn read_script() -> Result<Vec<u8>, String> {
    let mut arguments = std::env::args_os().skip(1);
    let file = arguments.next();
    if arguments.next().is_some() {
        return Err("one argument at the most: the file with the script".to_string());
    }
    match file {
        Some(path) => std::fs::read(&path).map_err(|error| format!("{}: {error}", path.to_string_lossy())),
        None => {
            let mut octets = Vec::new();
            std::io::stdin().lock().read_to_end(&mut octets).map_err(|error| format!("standard input: {error}"))?;
            Ok(octets)
        }
    }
}
