//! The declarations of safebound_command.h, the whole program over files in memory. The feature `command` brings them, and
//! links libsafebound_command as well.

use core::ffi::c_char;

/// `length` bytes.
#[repr(C)]
#[derive(Clone, Copy, Debug)]
pub struct safebound_text {
    /// The first of these bytes.
    pub bytes: *const c_char,
    /// How many bytes there are.
    pub length: usize,
}

/// A file: its name and its bytes.
#[repr(C)]
#[derive(Clone, Copy, Debug)]
pub struct safebound_file {
    /// The name that the words of the command line use, or a table's name in lower case and .csv.
    pub name: safebound_text,
    /// Its bytes.
    pub bytes: safebound_text,
}

macro_rules! exits {
    ($($name:ident = $number:literal, $meaning:literal;)*) => {
        $(#[doc = $meaning] pub const $name: u32 = $number;)*
        /// Each exit status by name, for tests that compare them with the header.
        pub const EXITS: &[(&str, u32)] = &[$((stringify!($name), $number)),*];
    };
}

exits! {
    SAFEBOUND_EXIT_DONE = 0, "The run is done.";
    SAFEBOUND_EXIT_USAGE = 2, "The words are no command.";
    SAFEBOUND_EXIT_READ = 3, "A file isn't there.";
    SAFEBOUND_EXIT_SCHEMA = 4, "The schema text is refused.";
    SAFEBOUND_EXIT_QUERY = 5, "The query text is refused.";
    SAFEBOUND_EXIT_TABLE = 6, "A table's file is refused.";
    SAFEBOUND_EXIT_LIMIT = 7, "A limit is passed.";
    SAFEBOUND_EXIT_BUDGET = 8, "The best plan passes the budget.";
    SAFEBOUND_EXIT_PAST_BITS = 9, "Each order has a level whose bound passes 128 bits.";
    SAFEBOUND_EXIT_WRITE = 10, "A room is too small.";
    SAFEBOUND_EXIT_NO_MEMORY = 11, "There was too little memory.";
    SAFEBOUND_EXIT_STATS = 14, "A text of statistics is refused, or lacks what the query needs.";
    SAFEBOUND_EXIT_WORDS = 15, "A word isn't UTF-8.";
    SAFEBOUND_EXIT_MEMORY_LIMIT = 16, "The plan's buffers take more bytes than --memory says.";
}

extern "C" {
    /// Runs a command line over files, and writes the program's two streams into two rooms. Returns the exit status.
    pub fn safebound_command(
        words: *const safebound_text,
        words_length: usize,
        files: *const safebound_file,
        files_length: usize,
        out: *mut c_char,
        out_room: usize,
        notes: *mut c_char,
        notes_room: usize,
        out_length: *mut u64,
        notes_length: *mut u64,
    ) -> u32;
}
