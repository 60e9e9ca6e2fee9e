//! An engine in a shared object with the functions of hosts/c/segment.h, and the memory lent to it.
use crate::interface::Record;
use std::ffi::{c_char, c_int, c_void, CStr, CString};

pub const REGISTERS: usize = 4096;
pub const PLACES: usize = 1024;
const PROGRAM: usize = 16384;

#[link(name = "dl")]
extern "C" {
    fn dlopen(path: *const c_char, flags: c_int) -> *mut c_void;
    fn dlsym(library: *mut c_void, name: *const c_char) -> *mut c_void;
    fn dlerror() -> *const c_char;
}

/// RTLD_NOW and RTLD_DEEPBIND: a library's calls find its own functions before those of the others.
const FLAGS: c_int = 2 | 8;

type Check = unsafe extern "C" fn(*const u8, usize, *mut u32, *mut u32);
type Open = unsafe extern "C" fn(*const u8, usize, *mut Record, *mut i64, usize, *mut u32, usize, *mut u32, usize, *mut u32, *mut u64);
type FeedTokens = unsafe extern "C" fn(
    *const u8,
    usize,
    *mut Record,
    *mut i64,
    usize,
    *mut u32,
    usize,
    *mut u32,
    usize,
    *const u8,
    usize,
    *mut u32,
    *mut u64,
);
type FeedValues = unsafe extern "C" fn(
    *const u8,
    usize,
    *mut Record,
    *mut i64,
    usize,
    *mut u32,
    usize,
    *mut u32,
    usize,
    *const u8,
    usize,
    *const i32,
    usize,
    *mut u32,
    *mut u64,
);
type Finish =
    unsafe extern "C" fn(*const u8, usize, *mut Record, *mut i64, usize, *mut u32, usize, *mut u32, usize, *mut u32, *mut i64, *mut u64);

/// A feed of kinds and values, or one of tokens that carry no values.
enum Feed {
    Values(FeedValues),
    Tokens(FeedTokens),
}

pub struct Engine {
    pub name: String,
    pub path: String,
    check: Check,
    open: Open,
    feed: Feed,
    finish: Finish,
}

/// Number, value and count of an answer; the offset of a table's refusal is its count.
pub type Answer = (u32, i64, u64);

/// What is lent to the engines, one after the other, and the record of the run.
#[derive(Clone, PartialEq)]
pub struct Memory {
    pub record: Record,
    pub registers: Vec<i64>,
    pub places: Vec<u32>,
    pub program: Vec<u32>,
    /// So many registers and places are lent; those past them must stay as they are.
    pub lent: (usize, usize),
}

impl Memory {
    pub fn new(lent: (usize, usize)) -> Memory {
        Memory {
            record: Record::default(),
            registers: vec![77; REGISTERS + 8],
            places: vec![77; PLACES + 8],
            program: vec![77; PROGRAM],
            lent,
        }
    }
}

/// The function of a shared object that has this name.
///
/// # Safety
/// `F` is a function pointer of the function's type.
unsafe fn function<F>(library: *mut c_void, name: &str) -> Result<F, String> {
    let symbol = CString::new(name).unwrap();
    let found = dlsym(library, symbol.as_ptr());
    if found.is_null() {
        return Err(format!("it has no function {name}"));
    }
    Ok(std::mem::transmute_copy(&found))
}

impl Engine {
    /// Opens NAME=PATH. The feed of an engine of tokens alone has no list of values.
    pub fn load(text: &str, tokens_alone: bool) -> Result<Engine, String> {
        let (name, path) = text.split_once('=').ok_or("wanted: NAME=PATH")?;
        // A name without a slash is looked for among the system's libraries.
        let file = if path.contains('/') { path.to_string() } else { format!("./{path}") };
        let c_path = CString::new(file).map_err(|e| e.to_string())?;
        unsafe {
            let library = dlopen(c_path.as_ptr(), FLAGS);
            if library.is_null() {
                return Err(CStr::from_ptr(dlerror()).to_string_lossy().into_owned());
            }
            let feed = if tokens_alone {
                Feed::Tokens(function(library, "segment_feed")?)
            } else {
                Feed::Values(function(library, "segment_feed")?)
            };
            Ok(Engine {
                name: name.to_string(),
                path: path.to_string(),
                check: function(library, "segment_check")?,
                open: function(library, "segment_open")?,
                feed,
                finish: function(library, "segment_finish")?,
            })
        }
    }

    pub fn takes_values(&self) -> bool {
        matches!(self.feed, Feed::Values(_))
    }

    pub fn check(&self, table: &[u8]) -> Answer {
        let (mut number, mut offset) = (0, 0);
        unsafe { (self.check)(table.as_ptr(), table.len(), &mut number, &mut offset) };
        (number, 0, offset as u64)
    }

    pub fn open(&self, table: &[u8], m: &mut Memory) -> Answer {
        let (mut number, mut count) = (0, 0);
        let (r, p, g) = (m.registers.as_mut_ptr(), m.places.as_mut_ptr(), m.program.as_mut_ptr());
        let open = self.open;
        unsafe { open(table.as_ptr(), table.len(), &mut m.record, r, m.lent.0, p, m.lent.1, g, PROGRAM, &mut number, &mut count) };
        (number, 0, count)
    }

    pub fn feed(&self, table: &[u8], m: &mut Memory, kinds: &[u8], values: &[i32]) -> Answer {
        let (mut number, mut count) = (0, 0);
        let (t, n, k) = (table.as_ptr(), table.len(), kinds.as_ptr());
        let (r, p, g) = (m.registers.as_mut_ptr(), m.places.as_mut_ptr(), m.program.as_mut_ptr());
        let (record, (nr, np)) = (&mut m.record, m.lent);
        unsafe {
            match self.feed {
                Feed::Values(feed) => {
                    feed(t, n, record, r, nr, p, np, g, PROGRAM, k, kinds.len(), values.as_ptr(), values.len(), &mut number, &mut count)
                }
                Feed::Tokens(feed) => feed(t, n, record, r, nr, p, np, g, PROGRAM, k, kinds.len(), &mut number, &mut count),
            }
        }
        (number, 0, count)
    }

    pub fn finish(&self, table: &[u8], m: &mut Memory) -> Answer {
        let (mut number, mut value, mut count) = (0, 0, 0);
        let (t, n, r) = (table.as_ptr(), table.len(), m.registers.as_mut_ptr());
        let (p, g, (nr, np)) = (m.places.as_mut_ptr(), m.program.as_mut_ptr(), m.lent);
        let finish = self.finish;
        unsafe { finish(t, n, &mut m.record, r, nr, p, np, g, PROGRAM, &mut number, &mut value, &mut count) };
        (number, value, count)
    }
}
