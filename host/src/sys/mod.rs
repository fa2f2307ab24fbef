//! The one module with `unsafe`: the calls of include/hongsathep.h declared and made, and the states that nothing but
//! these calls writes.
//!
//! Why it is sound.
//!
//! - A slice goes over as its pointer and its length, made by one macro (`calls!`) of the signature that the Rattle
//!   source has; `host/check-header` holds the signatures here to that source. Rust's slices are valid, aligned and not
//!   null, also empty ones, and what is lent to be written overlaps nothing: that is all that the calls ask.
//! - The tested calls (`raw`) ask nothing else: any bytes, any words end with an answer. Proved.
//! - The calls named `.._kept` leave the test of the rules out and require that the states keep them. They are made on
//!   the states of `kept` alone. Their fields are private to that file; each state there begins as a call of the library
//!   made it or found it kept, and no function writes it but by such a call. Every call keeps the rules, refusals too:
//!   proved (docs/THEOREMS.md). So the rules hold at every call, whatever the rest of this crate and its users do. What
//!   comes from outside, such as a list made for another directory, goes to the tested call.

/// Declares calls and makes each a function of slices; a slice is handed over as its pointer and its length.
macro_rules! calls {
    (tested $($(#[$note:meta])* fn $name:ident($($arguments:tt)*) -> $answer:ty;)*) => {
        $(calls!(@take [$(#[$note])* pub] $name $answer [] [] [] $($arguments)*,);)*
    };
    (kept $(fn $name:ident($($arguments:tt)*) -> $answer:ty;)*) => {
        $(calls!(@take [unsafe] $name $answer [] [] [] $($arguments)*,);)*
    };
    (@take $how:tt $name:ident $answer:ty [$($raw:tt)*] [$($taken:tt)*] [$($passed:tt)*]
     $x:ident: &mut [$t:ty; $n:literal], $($rest:tt)*) => {
        calls!(@take $how $name $answer [$($raw)* _: *mut [$t; $n],] [$($taken)* $x: &mut [$t; $n],] [$($passed)* $x,]
               $($rest)*);
    };
    (@take $how:tt $name:ident $answer:ty [$($raw:tt)*] [$($taken:tt)*] [$($passed:tt)*]
     $x:ident: &mut [$t:ty], $($rest:tt)*) => {
        calls!(@take $how $name $answer [$($raw)* _: *mut $t, _: usize,] [$($taken)* $x: &mut [$t],]
               [$($passed)* $x.as_mut_ptr(), $x.len(),] $($rest)*);
    };
    (@take $how:tt $name:ident $answer:ty [$($raw:tt)*] [$($taken:tt)*] [$($passed:tt)*]
     $x:ident: &[$t:ty], $($rest:tt)*) => {
        calls!(@take $how $name $answer [$($raw)* _: *const $t, _: usize,] [$($taken)* $x: &[$t],]
               [$($passed)* $x.as_ptr(), $x.len(),] $($rest)*);
    };
    (@take $how:tt $name:ident $answer:ty [$($raw:tt)*] [$($taken:tt)*] [$($passed:tt)*]
     $x:ident: &mut $t:ty, $($rest:tt)*) => {
        calls!(@take $how $name $answer [$($raw)* _: *mut $t,] [$($taken)* $x: &mut $t,] [$($passed)* $x,] $($rest)*);
    };
    (@take $how:tt $name:ident $answer:ty [$($raw:tt)*] [$($taken:tt)*] [$($passed:tt)*]
     $x:ident: $t:ty, $($rest:tt)*) => {
        calls!(@take $how $name $answer [$($raw)* _: $t,] [$($taken)* $x: $t,] [$($passed)* $x,] $($rest)*);
    };
    (@take [$($how:tt)*] $name:ident $answer:ty [$($raw:tt)*] [$($taken:tt)*] [$($passed:tt)*] $(,)?) => {
        #[allow(clippy::too_many_arguments)]
        $($how)* fn $name($($taken)*) -> $answer {
            extern "C" {
                fn $name($($raw)*) -> $answer;
            }
            unsafe { $name($($passed)*) }
        }
    };
}

mod kept;
pub mod raw;

pub(crate) use self::kept::{
    begin_record, clear_replay_logs, end_read, end_record, salvage, Bytes, FoundFiles, List, Overlays, Queues, Reader,
    Stepped, Tables,
};

use std::{fs::File, io, os::fd::AsRawFd, os::raw::c_int};

/// Takes a file's lock of the system, or fails at once if another process or another handle has it. It goes with the
/// handle, however its process ends.
pub(crate) fn lock(file: &File) -> io::Result<()> {
    extern "C" {
        fn flock(file: c_int, operation: c_int) -> c_int;
    }
    const EXCLUSIVE: c_int = 2;
    const AT_ONCE: c_int = 4;
    match unsafe { flock(file.as_raw_fd(), EXCLUSIVE | AT_ONCE) } {
        0 => Ok(()),
        _ => Err(io::Error::last_os_error()),
    }
}
