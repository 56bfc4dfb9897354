//! The faults of texts and frames, and the refusals of numbers.

use std::fmt;
use vicinity_sys as sys;

/// The name that the library has for a number.
fn name(number: u32, f: &mut fmt::Formatter<'_>) -> fmt::Result {
    let mut name = sys::vicinity_name { len: 0, text: [0; 28] };
    // SAFETY: `name` is a struct that nothing else refers to.
    let len = unsafe { sys::vicinity_fault_name(number, &mut name) } as usize;
    match std::str::from_utf8(&name.text[..len]) {
        Ok(text) if len > 0 => f.write_str(text),
        _ => write!(f, "fault {number}"),
    }
}

macro_rules! numbered {
    ($(#[$about:meta])* $kind:ident { $($(#[$note:meta])* $name:ident = $number:literal,)* }) => {
        $(#[$about])*
        #[derive(Clone, Copy, Debug, PartialEq, Eq, Hash)]
        #[non_exhaustive]
        pub enum $kind {
            $($(#[$note])* $name,)*
            /// One that a newer library has.
            Other(u32),
        }

        impl $kind {
            pub(crate) fn of(number: u32) -> $kind {
                match number {
                    $($number => $kind::$name,)*
                    other => $kind::Other(other),
                }
            }

            /// Its number in `vicinity.h`.
            pub fn number(self) -> u32 {
                match self {
                    $($kind::$name => $number,)*
                    $kind::Other(other) => other,
                }
            }
        }

        impl fmt::Display for $kind {
            fn fmt(&self, f: &mut fmt::Formatter<'_>) -> fmt::Result {
                name(self.number(), f)
            }
        }

        impl std::error::Error for $kind {}
    };
}

numbered! {
    /// The first fault of a text or a frame. It displays as its name, as the program writes it.
    Fault {
        TooManyLines = 1,
        LineTooLong = 2,
        Header = 3,
        UnknownEntry = 4,
        Hex = 5,
        ListedLength = 6,
        NotVicinity = 7,
        SlotOutsideRound = 8,
        EntryAfterList = 9,
        DuplicateListed = 10,
        FrameShort = 101,
        FrameCrc = 102,
        FrameExtension = 103,
        FrameReserved = 104,
        FrameOptionFlag = 105,
        FrameOtherCommand = 106,
        FrameInventoryFlag = 107,
        FrameAfi = 108,
        FrameLength = 109,
        FrameMaskTooLong = 110,
        FrameMaskPadding = 111,
        FrameSelectFlag = 112,
        FrameNotAddressed = 113,
        FrameErrorFlag = 114,
        FrameNotVicinity = 115,
    }
}

numbered! {
    /// Why a frame, a mask or a line can't be made: the first reason that applies.
    Refusal {
        /// Above 3.
        WrongLink = 201,
        /// Neither 1 nor 16.
        WrongSlots = 202,
        /// Above 64 bits, or 60 with 16 slots.
        WrongMask = 203,
        /// Not below the number of slots.
        WrongSlot = 204,
        /// The Error_flag is 1.
        WrongReply = 205,
        /// More bytes than fit.
        TooLong = 206,
        WrongLetter = 207,
    }
}
