//! Is the list of tags that an RFID reader claims complete? The library `libvicinity`, safe to
//! call.
//!
//! ```
//! let answer = vicinity::check(b"vicinity-log 1\nT 260100F60A\nS\n")?;
//! assert!(answer.is_complete());
//! assert_eq!(answer.to_string(), "complete 0");
//! assert_eq!(format!("{answer:?}"), "Answer(complete 0)");
//! # Ok::<(), vicinity::OutOfMemory>(())
//! ```
//!
//! A text is bytes: a log as it was written, whatever ends its lines. Nothing here reads one: each
//! answer is that of a proved call.

mod answers;
mod calls;
mod error;
mod fault;
mod frames;
mod run;
mod uid;

pub use answers::{Answer, Explained, Finding, Margin, Report, Verdict, Weakest};
pub use calls::{check, check_listed, explain, fits, margin, margin_listed, report, version};
pub use error::{OutOfMemory, RunError, SimulateError};
pub use fault::{Fault, Refusal};
pub use frames::{
    add_crc, read_request, read_response, slot_mask, write_inventory, write_line, write_response,
    write_stay_quiet, Entry, Frame, Reply, Request,
};
pub use run::{run, simulate, Command, Written};
pub use uid::{Mask, NotUid, Uid};
pub use vicinity_sys::VICINITY_HEADER_LINE as HEADER_LINE;
