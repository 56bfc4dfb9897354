//! What the program does, over texts in memory.

use crate::error::{RunError, SimulateError};
use vicinity_sys as sys;

/// How many bytes a buffer has at first.
const FIRST_ROOM: usize = 64;

/// There is no answer: the status of the program.
const NO_ANSWER: u32 = 4;

/// A command of the program, with its number in the header.
#[derive(Clone, Copy, Debug, PartialEq, Eq)]
#[repr(u32)]
pub enum Command {
    /// Of a log.
    Check = 1,
    /// Of a log.
    Explain = 2,
    /// Of a log.
    Report = 3,
    /// Of a log.
    Margin = 4,
    /// Of a log without slots.
    Simulate = 5,
    /// Of a list of what is expected, and then logs or surveys; or of the same as `Collection`.
    Reconcile = 6,
    /// Of a word.
    Frame = 7,
    /// Of words, at least one.
    Spell = 8,
    /// Of logs, at least one.
    Survey = 9,
    /// Of a catalogue, a table of places or none, and logs or surveys.
    Collection = 10,
    /// Of a log.
    Json = 11,
    /// Of the same as `Collection`.
    JsonCollection = 12,
}

/// What the program writes to standard output, and its exit status.
#[derive(Clone, Debug, PartialEq, Eq)]
pub struct Written {
    pub text: Vec<u8>,
    pub status: u8,
}

/// What the program does for a command over texts in memory, each with its name, such as that of
/// its file.
///
/// ```
/// use vicinity::{run, Command, RunError};
/// let empty = ("empty", &b"vicinity-log 3\nT 260100F60A\nS\n"[..]);
/// let catalogue = ("books.csv", &b"uid,title\nE0040100000000A1,Emma\n"[..]);
/// let sent = run(Command::Survey, &[empty])?.text;
/// let told = run(Command::Collection, &[catalogue, ("sent", &sent)])?;
/// assert!(told.text.ends_with(b"\nE0040100000000A1,Emma,missing,,\n"));
/// assert_eq!(told.status, 1);
/// // a part of a survey is none
/// assert_eq!(run(Command::Collection, &[catalogue, ("sent", &sent[1..])])?.status, 3);
/// assert_eq!(run(Command::Check, &[]), Err(RunError::Usage));
/// # Ok::<(), vicinity::RunError>(())
/// ```
pub fn run(command: Command, texts: &[(&str, &[u8])]) -> Result<Written, RunError> {
    let (mut names, mut joined, mut lengths) = (Vec::new(), Vec::new(), Vec::new());
    for (name, text) in texts {
        if name.contains('\n') {
            return Err(RunError::Usage);
        }
        names.extend_from_slice(name.as_bytes());
        names.push(b'\n');
        joined.extend_from_slice(text);
        lengths.push(text.len());
    }
    let mut room = vec![0; FIRST_ROOM];
    loop {
        let (to, len, mut needed) = (room.as_mut_ptr(), room.len(), 0);
        // SAFETY: each pointer is a vector's, with its length, and the vectors stay borrowed.
        let status = unsafe {
            sys::vicinity_run(
                command as u32,
                names.as_ptr(),
                names.len(),
                joined.as_ptr(),
                joined.len(),
                lengths.as_ptr(),
                lengths.len(),
                to,
                len,
                &mut needed,
            )
        };
        match (status, needed) {
            (NO_ANSWER, 0) => return Err(RunError::OutOfMemory),
            (NO_ANSWER, _) => return Err(RunError::Usage),
            _ if needed <= len => {
                room.truncate(needed);
                return Ok(Written { text: room, status: status as u8 });
            }
            _ => room.resize(needed, 0),
        }
    }
}

/// The log that conforming tags would produce: the text has the requests, and lists the tags.
pub fn simulate(text: &[u8]) -> Result<Vec<u8>, SimulateError> {
    match run(Command::Simulate, &[("", text)]) {
        Ok(Written { text, status: 0 }) => Ok(text),
        Ok(Written { text, .. }) => {
            Err(SimulateError::Refused(String::from_utf8_lossy(&text).trim_end().to_owned()))
        }
        Err(_) => Err(SimulateError::OutOfMemory),
    }
}
