//! The program by the binding for Rust: the number of a command, and then files, of which none
//! means standard input, or words.

use std::io::Write;
use std::{env, fs, io, process};
use vicinity::Command::{
    Check, Collection, Explain, Frame, Json, JsonCollection, Margin, Reconcile, Report, Simulate,
    Spell, Survey,
};

const COMMANDS: [vicinity::Command; 12] = [
    Check,
    Explain,
    Report,
    Margin,
    Simulate,
    Reconcile,
    Frame,
    Spell,
    Survey,
    Collection,
    Json,
    JsonCollection,
];

fn main() {
    let words: Vec<String> = env::args().skip(1).collect();
    let command = COMMANDS[words[0].parse::<usize>().unwrap() - 1];
    let reads = command != Frame && command != Spell;
    let input = ["/dev/stdin".to_owned()];
    let names = if reads && words.len() == 1 { &input[..] } else { &words[1..] };
    let text = |name: &String| if reads { fs::read(name).unwrap() } else { name.clone().into() };
    let texts: Vec<Vec<u8>> = names.iter().map(text).collect();
    let name_of = |name| if reads { name } else { "" };
    let given: Vec<(&str, &[u8])> =
        names.iter().zip(&texts).map(|(name, text)| (name_of(name), &text[..])).collect();
    match vicinity::run(command, &given) {
        Ok(written) => {
            io::stdout().write_all(&written.text).unwrap();
            process::exit(written.status.into());
        }
        Err(why) => {
            eprintln!("vicinity: {why}");
            process::exit(4);
        }
    }
}
