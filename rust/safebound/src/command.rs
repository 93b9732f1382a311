//! The whole program over files in memory.

use crate::calls;
use crate::errors::Error;
use safebound_sys as sys;

const LEAST_OUT: usize = 65536;
const LEAST_NOTES: usize = 4096;
const GROWS: usize = 8;

/// A command line of the program, over files in memory.
///
/// The words are those of the program's command line, without the program's name. Words name files, and a file has that name
/// here. A table's file has the table's name in lower case, and .csv. Both texts, the exit statuses and the limits are the
/// program's: docs/USING.md and docs/ERRORS.md of the repository describe them.
///
/// ```
/// use safebound::Command;
///
/// let output = Command::new(["run", "schema.sql", "query.sql"])
///     .file("schema.sql", "CREATE TABLE R (X INTEGER NOT NULL); CREATE TABLE S (X INTEGER NOT NULL)")
///     .file("query.sql", "SELECT R.X FROM R, S WHERE R.X = S.X")
///     .file("r.csv", "X\n1\n1\n2\n")
///     .file("s.csv", "X\n1\n3\n")
///     .run()?;
/// assert_eq!(output.status, 0);
/// assert_eq!(output.out, b"X\r\n1\r\n1\r\n");
/// assert_eq!(output.notes, b"scan R 3\nscan S 2\nlevel 1 S 2\nlevel 2 R 3\n");
/// # Ok::<(), safebound::Error>(())
/// ```
#[derive(Clone, Debug)]
pub struct Command<'a> {
    words: Vec<&'a [u8]>,
    files: Vec<(&'a [u8], &'a [u8])>,
}

/// The result of a run.
#[derive(Clone, Debug, PartialEq, Eq, Hash)]
pub struct Output {
    /// The program's exit status: 0 if the run is done.
    pub status: u32,
    /// The program's standard output.
    pub out: Vec<u8>,
    /// The program's standard error: the plan, or the line that says why there is no plan.
    pub notes: Vec<u8>,
}

impl<'a> Command<'a> {
    /// A command line without files.
    pub fn new<W: AsRef<[u8]> + ?Sized + 'a>(words: impl IntoIterator<Item = &'a W>) -> Command<'a> {
        Command { words: words.into_iter().map(AsRef::as_ref).collect(), files: Vec::new() }
    }

    /// Adds a file. If two files have the same name, the first one is read.
    pub fn file<N, B>(mut self, name: &'a N, bytes: &'a B) -> Command<'a>
    where
        N: AsRef<[u8]> + ?Sized,
        B: AsRef<[u8]> + ?Sized,
    {
        self.files.push((name.as_ref(), bytes.as_ref()));
        self
    }

    /// Runs the command line.
    ///
    /// # Errors
    ///
    /// [`OutOfMemory`](Error::OutOfMemory) if there is no memory for both texts. If the run itself has too little memory, its
    /// exit status is 11.
    pub fn run(&self) -> Result<Output, Error> {
        let (mut out, mut notes) = (Vec::new(), Vec::new());
        let (mut room, mut notes_room) = (LEAST_OUT, LEAST_NOTES);
        loop {
            out.try_reserve_exact(room).map_err(|_| Error::OutOfMemory)?;
            notes.try_reserve_exact(notes_room).map_err(|_| Error::OutOfMemory)?;
            let ended = calls::command(&self.words, &self.files, &mut out, &mut notes);
            // A line that doesn't fit into its room is cut, whatever the status.
            if ended.notes == notes.capacity() {
                notes_room = notes.capacity().saturating_mul(GROWS);
            } else if ended.status == sys::SAFEBOUND_EXIT_WRITE && ended.out == out.capacity() {
                room = out.capacity().saturating_mul(GROWS);
            } else {
                return Ok(Output { status: ended.status, out, notes });
            }
            out.clear();
            notes.clear();
        }
    }
}
