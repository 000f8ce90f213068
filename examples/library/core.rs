//! The engine for Rust: a safe face of one file over libcore.a.
//!
//! ```ignore
//! let mut engine = Engine::open(text)?;
//! for line in lines {
//!     for answer in engine.feed(line)? {
//!         let Answer { query, start, end, positions } = answer?;
//!     }
//! }
//! ```
//!
//! An engine is neither `Send` nor `Sync`: it stays on the thread that opened it.

use std::collections::hash_map::RandomState;
use std::ffi::c_void;
use std::fmt;
use std::hash::{BuildHasher, Hasher};

#[repr(C)]
struct RawEngine {
    at: *mut c_void,
    full: bool,
    seed: [u64; 2],
}

#[repr(C)]
#[derive(Default)]
struct RawFault {
    line: u64,
    column: u64,
    words: usize,
}

#[repr(C)]
#[derive(Default)]
struct RawAnswer {
    query: u64,
    start: u64,
    end: u64,
    count: usize,
}

/// What is kept: the events that were taken and the queries that there are; and of one query the nodes,
/// the most nodes that there were after an event, and the states that were found.
#[repr(C)]
#[derive(Debug, Default, Clone, Copy, PartialEq, Eq)]
pub struct Sizes {
    pub events: u64,
    pub queries: u64,
    pub nodes: u64,
    pub peak: u64,
    pub states: u64,
}

#[link(name = "core", kind = "static")]
unsafe extern "C" {
    fn core_open(e: *mut RawEngine, t: *const u8, n: usize, f: *mut RawFault, w: *mut u8, m: usize) -> i32;
    fn core_feed(e: *mut RawEngine, l: *const u8, n: usize, f: *mut RawFault, w: *mut u8, m: usize) -> i32;
    fn core_feed_some(
        e: *mut RawEngine,
        l: *const u8,
        n: usize,
        used: *mut usize,
        f: *mut RawFault,
        w: *mut u8,
        m: usize,
    ) -> i32;
    fn core_next(e: *mut RawEngine, a: *mut RawAnswer, p: *mut u64, m: usize) -> i32;
    fn core_hold(e: *mut RawEngine, query: u64, cursor: *mut u64) -> i32;
    fn core_pull(e: *mut RawEngine, cursor: u64, a: *mut RawAnswer, p: *mut u64, m: usize) -> i32;
    fn core_drop(e: *mut RawEngine, cursor: u64) -> i32;
    fn core_compact(e: *mut RawEngine) -> i32;
    fn core_sizes(e: *mut RawEngine, query: u64, sizes: *mut Sizes) -> i32;
    fn core_close(e: *mut RawEngine) -> i32;
}

const OK: i32 = 0;
const NONE: i32 = 1;
const ROOM: i32 = 2;
const QUERY: i32 = 3;
const EVENT: i32 = 4;
const MEMORY: i32 = 5;

/// Why a call did not do what it was asked. Nothing has changed.
#[derive(Debug, Clone, PartialEq, Eq)]
pub enum Error {
    /// The query text has a fault, the first of which stands here.
    Query { line: u64, column: u64, words: String },
    /// The line of this number, after those that were taken, is refused.
    Line { line: u64, words: String },
    /// Memory ran out.
    Memory,
    /// 64 cursors are held.
    TooMany,
}

impl fmt::Display for Error {
    fn fmt(&self, f: &mut fmt::Formatter<'_>) -> fmt::Result {
        match self {
            Error::Query { words, .. } | Error::Line { words, .. } => f.write_str(words),
            Error::Memory => f.write_str("the engine has no memory"),
            Error::TooMany => f.write_str("64 cursors are held"),
        }
    }
}

impl std::error::Error for Error {}

/// An answer: its query, from 1, the positions from 0 at which it starts and ends, and those that are
/// marked, rising.
#[derive(Debug, Clone, PartialEq, Eq)]
pub struct Answer {
    pub query: u64,
    pub start: u64,
    pub end: u64,
    pub positions: Vec<u64>,
}

/// What is told of a refusal.
#[derive(Default)]
struct Told {
    fault: RawFault,
    words: Vec<u8>,
}

impl Told {
    fn new() -> Told {
        Told { fault: RawFault::default(), words: vec![0; 512] }
    }

    fn error(self, status: i32) -> Error {
        let RawFault { line, column, words } = self.fault;
        let words = String::from_utf8_lossy(&self.words[..words.min(self.words.len())]).trim_end().to_string();
        match status {
            QUERY => Error::Query { line, column, words },
            EVENT => Error::Line { line, words },
            _ => Error::Memory,
        }
    }
}

/// An engine for the queries of a text.
pub struct Engine {
    raw: RawEngine,
    positions: Vec<u64>,
}

impl Engine {
    /// Opens an engine for the queries of the text, with a seed that nobody can guess.
    pub fn open(text: &str) -> Result<Engine, Error> {
        let seed = [(); 2].map(|()| RandomState::new().build_hasher().finish());
        let mut raw = RawEngine { at: std::ptr::null_mut(), full: false, seed };
        let mut told = Told::new();
        let Told { fault, words } = &mut told;
        // Each pointer is of a value or a slice that lives through the call, with the slice's length.
        let status =
            unsafe { core_open(&mut raw, text.as_ptr(), text.len(), fault, words.as_mut_ptr(), words.len()) };
        match status {
            OK => Ok(Engine { raw, positions: vec![0; 16] }),
            status => Err(told.error(status)),
        }
    }

    /// Feeds one line, without its line feed, and gives its answers. What was left of the answers before
    /// is dropped; an empty line has none of its own and leaves them.
    pub fn feed(&mut self, line: impl AsRef<[u8]>) -> Result<Answers<'_>, Error> {
        let (line, mut told) = (line.as_ref(), Told::new());
        let Told { fault, words } = &mut told;
        let status = unsafe {
            core_feed(&mut self.raw, line.as_ptr(), line.len(), fault, words.as_mut_ptr(), words.len())
        };
        match status {
            OK | NONE => Ok(Answers { engine: self }),
            status => Err(told.error(status)),
        }
    }

    /// Feeds whole lines of the bytes, up to and with the first event that may have an answer: how many
    /// bytes they are, and why no further line was taken.
    pub fn feed_some(&mut self, bytes: &[u8]) -> (usize, Result<Fed<'_>, Error>) {
        let (mut used, mut told) = (0, Told::new());
        let Told { fault, words } = &mut told;
        let status = unsafe {
            let (words, room) = (words.as_mut_ptr(), words.len());
            core_feed_some(&mut self.raw, bytes.as_ptr(), bytes.len(), &mut used, fault, words, room)
        };
        let fed = match status {
            OK => Ok(Fed::Answers(Answers { engine: self })),
            NONE => Ok(Fed::All),
            status => Err(told.error(status)),
        };
        (used, fed)
    }

    /// Holds a cursor over all answers of the query with this number, from 1, that end at the last event;
    /// none where there is no such query, or no event yet. What it has left stays, whatever is fed, until
    /// it is pulled or let go.
    pub fn hold(&mut self, query: u64) -> Result<Option<Cursor>, Error> {
        let mut number = 0;
        match unsafe { core_hold(&mut self.raw, query, &mut number) } {
            OK => Ok(Some(Cursor { number })),
            NONE => Ok(None),
            ROOM => Err(Error::TooMany),
            _ => Err(Error::Memory),
        }
    }

    /// Gives the next answer of the held cursor, if it has one more. The cursor is one of this engine's.
    pub fn pull(&mut self, cursor: &Cursor) -> Option<Result<Answer, Error>> {
        self.pulled(|raw, answer, positions, room| unsafe { core_pull(raw, cursor.number, answer, positions, room) })
    }

    /// Lets the held cursor go.
    pub fn let_go(&mut self, cursor: Cursor) {
        unsafe { core_drop(&mut self.raw, cursor.number) };
    }

    /// What the call gives, which is made again with more room where it needs that.
    fn pulled(
        &mut self,
        mut call: impl FnMut(*mut RawEngine, *mut RawAnswer, *mut u64, usize) -> i32,
    ) -> Option<Result<Answer, Error>> {
        let Engine { raw, positions } = self;
        let mut answer = RawAnswer::default();
        loop {
            match call(raw, &mut answer, positions.as_mut_ptr(), positions.len()) {
                OK => break,
                ROOM => positions.resize(answer.count, 0),
                MEMORY => return Some(Err(Error::Memory)),
                _ => return None,
            }
        }
        let RawAnswer { query, start, end, count } = answer;
        Some(Ok(Answer { query, start, end, positions: positions[..count].to_vec() }))
    }

    /// Gives up what no window reaches any more.
    pub fn compact(&mut self) -> Result<(), Error> {
        match unsafe { core_compact(&mut self.raw) } {
            OK => Ok(()),
            _ => Err(Error::Memory),
        }
    }

    /// What is kept of the query with this number, from 1, if there is one.
    pub fn sizes(&mut self, query: u64) -> Option<Sizes> {
        let mut sizes = Sizes::default();
        (unsafe { core_sizes(&mut self.raw, query, &mut sizes) } == OK).then_some(sizes)
    }
}

impl Drop for Engine {
    fn drop(&mut self) {
        unsafe { core_close(&mut self.raw) };
    }
}

/// A cursor that an engine holds.
pub struct Cursor {
    number: u64,
}

/// Why `feed_some` took no further line.
pub enum Fed<'a> {
    /// The last event may have answers: these.
    Answers(Answers<'a>),
    /// No whole line is left.
    All,
}

/// The answers that are left at the last event.
pub struct Answers<'a> {
    engine: &'a mut Engine,
}

impl Iterator for Answers<'_> {
    type Item = Result<Answer, Error>;

    fn next(&mut self) -> Option<Result<Answer, Error>> {
        self.engine.pulled(|raw, answer, positions, room| unsafe { core_next(raw, answer, positions, room) })
    }
}
