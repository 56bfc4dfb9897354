//! The calls that judge a text.

use crate::answers::{Answer, Explained, Finding, Margin, Report};
use crate::error::OutOfMemory;
use crate::uid::Uid;
use vicinity_sys as sys;

/// How many elements a buffer has at first.
const FIRST_ROOM: usize = 64;

/// Memory is refused: the status of the program.
const NO_ANSWER: u32 = 4;

const EMPTY: sys::vicinity_answer = sys::vicinity_answer {
    kind: 0,
    status: NO_ANSWER,
    count: 0,
    line: 0,
    fault: 0,
    mask_len: 0,
    mask_value: 0,
    uid: 0,
    text: [0; 64],
};

/// Whether the linked library has the interface for which this crate was written.
pub fn fits() -> bool {
    // SAFETY: the call takes nothing.
    unsafe { sys::vicinity_interface() == sys::VICINITY_INTERFACE }
}

/// The version of the linked library: 10,000 times its first number, 100 times its second, its
/// third.
pub fn version() -> u32 {
    // SAFETY: the call takes nothing.
    unsafe { sys::vicinity_version() }
}

/// Makes a call that fills a buffer, and again where it needs a larger one: what it answers, and
/// the elements.
fn filled<T: Clone + Default>(
    mut call: impl FnMut(&mut sys::vicinity_answer, &mut [T], &mut usize),
) -> (sys::vicinity_answer, Vec<T>) {
    let mut room = vec![T::default(); FIRST_ROOM];
    loop {
        let (mut told, mut needed) = (EMPTY, 0);
        call(&mut told, &mut room, &mut needed);
        if needed <= room.len() {
            room.truncate(needed);
            return (told, room);
        }
        room.resize(needed, T::default());
    }
}

/// UIDs that the library wrote.
fn uids(numbers: Vec<u64>) -> Vec<Uid> {
    numbers.into_iter().map(Uid::written).collect()
}

/// UIDs as the library takes them: a `Uid` has the layout of a `u64`.
fn start(uids: &[Uid]) -> *const u64 {
    uids.as_ptr().cast()
}

// In each call below: a slice's pointer is aligned and its length at most isize::MAX, it stays
// borrowed while the call runs, and the structs that are written are borrowed by nothing else.

/// The answer to a log, as `vicinity check`.
pub fn check(text: &[u8]) -> Result<Answer, OutOfMemory> {
    let mut told = EMPTY;
    // SAFETY: as above.
    unsafe { sys::vicinity_check(text.as_ptr(), text.len(), &mut told) };
    Answer::of(&told)
}

/// The answer to a log, and a counterexample, as `vicinity explain`.
pub fn explain(text: &[u8]) -> Result<Explained, OutOfMemory> {
    let (told, population) = filled(|told, room: &mut [u64], needed| {
        let (to, len) = (room.as_mut_ptr(), room.len());
        // SAFETY: as above.
        unsafe { sys::vicinity_explain(text.as_ptr(), text.len(), told, to, len, needed) };
    });
    Ok(Explained { answer: Answer::of(&told)?, population: uids(population) })
}

/// The answer to a log, and every finding, as `vicinity report`.
pub fn report(text: &[u8]) -> Result<Report, OutOfMemory> {
    let (told, findings) = filled(|told, room: &mut [sys::vicinity_finding], needed| {
        let (to, len) = (room.as_mut_ptr(), room.len());
        // SAFETY: as above.
        unsafe { sys::vicinity_report(text.as_ptr(), text.len(), told, to, len, needed) };
    });
    let findings = findings.iter().map(Finding::of).collect();
    Ok(Report { answer: Answer::of(&told)?, findings })
}

/// The answer to a text without `U` lines, followed by a `U` line for each of these UIDs. Its last
/// line may lack its LF.
///
/// ```
/// let a = vicinity::Uid::new(0xE0040100000000A1).unwrap();
/// let told = vicinity::check_listed(b"vicinity-log 1\nT 260100F60A\nS\n# end", &[a])?;
/// assert_eq!(told.to_string(), "absent E0040100000000A1");
/// # Ok::<(), vicinity::OutOfMemory>(())
/// ```
pub fn check_listed(text: &[u8], listed: &[Uid]) -> Result<Answer, OutOfMemory> {
    let (bytes, count) = (text.as_ptr(), listed.len());
    let mut told = EMPTY;
    // SAFETY: as above.
    unsafe { sys::vicinity_check_listed(bytes, text.len(), start(listed), count, &mut told) };
    Answer::of(&told)
}

/// The answer to a log, and its margin, as `vicinity margin`.
///
/// ```
/// let told = vicinity::margin(b"vicinity-log 1\nT 260100F60A\nS\n")?;
/// let weakest = told.weakest.unwrap();
/// assert_eq!((weakest.margin, weakest.mask), (1, vicinity::Mask::ALL));
/// assert_eq!(vicinity::margin(b"")?.weakest, None);
/// # Ok::<(), vicinity::OutOfMemory>(())
/// ```
pub fn margin(text: &[u8]) -> Result<Margin, OutOfMemory> {
    let (mut told, mut least) = (EMPTY, sys::vicinity_weakest::default());
    // SAFETY: as above.
    unsafe { sys::vicinity_margin(text.as_ptr(), text.len(), &mut told, &mut least) };
    Margin::of(&told, &least)
}

/// As `margin`, for a text and a list as `check_listed` takes them.
///
/// ```
/// use vicinity::{Mask, Uid, Weakest};
///
/// let a: Uid = "E0040100000000A1".parse()?;
/// // a answers and is silenced, then nobody does: any other tag was overlooked in both slots
/// let text = b"vicinity-log 1\nT 260100F60A\nR 0000A1000000000104E06745\n\
///     T 2202A1000000000104E0662A\nT 260100F60A\nS";
/// let told = vicinity::margin_listed(text, &[a])?;
/// assert!(told.answer.is_complete());
/// // were the reader deaf after the reply of a, other tags could be there
/// let even = Mask::new(1, 0).unwrap();
/// assert_eq!(told.weakest, Some(Weakest { margin: 2, mask: even, hidden: None, deaf: Some(even) }));
/// # Ok::<(), Box<dyn std::error::Error>>(())
/// ```
pub fn margin_listed(text: &[u8], listed: &[Uid]) -> Result<Margin, OutOfMemory> {
    let (bytes, list, count) = (text.as_ptr(), start(listed), listed.len());
    let (mut told, mut least) = (EMPTY, sys::vicinity_weakest::default());
    // SAFETY: as above.
    unsafe { sys::vicinity_margin_listed(bytes, text.len(), list, count, &mut told, &mut least) };
    Margin::of(&told, &least)
}
