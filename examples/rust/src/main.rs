//! Checks a log, FILE or standard input; shows how sure a complete list is, or a counterexample. If
//! logs follow, reconciles these with the list of FILE, as vicinity reconcile:
//! vicinity-check [FILE [LOG ..]]

use std::error::Error;
use std::ffi::OsString;
use std::fmt::Display;
use std::io::{Read, Write};
use std::process::ExitCode;
use vicinity::Command;

fn read(file: Option<&OsString>) -> std::io::Result<Vec<u8>> {
    match file {
        Some(file) => std::fs::read(file),
        None => {
            let mut text = Vec::new();
            std::io::stdin().read_to_end(&mut text)?;
            Ok(text)
        }
    }
}

/// Shows a line beside the answer, if standard error accepts it; eprintln would panic if not.
fn note(line: impl Display) {
    let _ = writeln!(std::io::stderr(), "{line}");
}

/// The line of the answer, and its status.
fn check(text: &[u8]) -> Result<(Vec<u8>, u8), Box<dyn Error>> {
    let explained = vicinity::explain(text)?;
    for uid in explained.population {
        note(format_args!("U {uid}"));
    }
    if explained.answer.is_complete() {
        if let Some(weakest) = vicinity::margin(text)?.weakest {
            note(format_args!("margin {}\nweakest {}", weakest.margin, weakest.mask));
            for (reading, mask) in [("hidden", weakest.hidden), ("deaf", weakest.deaf)] {
                match mask {
                    Some(mask) => note(format_args!("{reading} {mask}")),
                    None => note(format_args!("{reading} -")),
                }
            }
        }
    }
    Ok((format!("{}\n", explained.answer).into_bytes(), explained.answer.status()))
}

/// What the program writes, and its status.
fn reconcile(files: &[OsString]) -> Result<(Vec<u8>, u8), Box<dyn Error>> {
    let names = files
        .iter()
        .map(|file| file.to_str().ok_or("usage: a name of a file isn't UTF-8"))
        .collect::<Result<Vec<_>, _>>()?;
    let texts = files.iter().map(std::fs::read).collect::<Result<Vec<_>, _>>()?;
    let given: Vec<(&str, &[u8])> =
        names.into_iter().zip(&texts).map(|(name, text)| (name, &text[..])).collect();
    let told = vicinity::run(Command::Reconcile, &given)?;
    Ok((told.text, told.status))
}

/// Shows an answer. One that can't be written is none; only a closed stream is no error for std.
fn run(files: &[OsString]) -> Result<ExitCode, Box<dyn Error>> {
    let (text, status) =
        if files.len() > 1 { reconcile(files)? } else { check(&read(files.first())?)? };
    std::io::stdout().write_all(&text)?;
    Ok(ExitCode::from(status))
}

fn main() -> ExitCode {
    let files: Vec<OsString> = std::env::args_os().skip(1).collect();
    if !vicinity::fits() {
        return ExitCode::from(4);
    }
    run(&files).unwrap_or_else(|error| {
        note(error);
        ExitCode::from(4)
    })
}
