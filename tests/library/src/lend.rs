//! Memory as it is lent to a call, and what lies around it.
//!
//! Guard bytes show a byte written outside; memory that ends or begins at a page which may not be touched shows a byte read outside too, and
//! pages that may only be read show that what is lent for reading is not even written and put back.

use crate::call::Call;
use std::fmt;
use std::os::raw::{c_int, c_void};
use std::ptr;

/// How the buffers of a call are lent.
#[derive(Debug, Clone, Copy, PartialEq, Eq)]
pub enum Way {
    /// From inside a larger allocation, guard bytes on both sides, at an address that is this much past a multiple of eight.
    Guarded(u8),
    /// At the beginning of a page, the page before it shut, guard bytes behind.
    Low,
    /// At the end of a page, the page behind it shut, guard bytes before.
    High,
    /// Each in an allocation of exactly its length, for valgrind.
    Exact,
    /// As Guarded, but what is only read lies within the map's own bytes where these have it: such buffers may overlap.
    Within,
}

impl fmt::Display for Way {
    fn fmt(&self, f: &mut fmt::Formatter<'_>) -> fmt::Result {
        match self {
            Way::Guarded(shift) => write!(f, "guarded{shift}"),
            Way::Low => write!(f, "low"),
            Way::High => write!(f, "high"),
            Way::Exact => write!(f, "exact"),
            Way::Within => write!(f, "within"),
        }
    }
}

impl Way {
    pub fn parse(text: &str) -> Result<Way, String> {
        let all = (0..8).map(Way::Guarded).chain([Way::Low, Way::High, Way::Exact, Way::Within]);
        all.into_iter().find(|way| way.to_string() == text).ok_or(format!("no such way to lend: {text}"))
    }
}

extern "C" {
    fn mmap(at: *mut c_void, length: usize, protection: c_int, flags: c_int, file: c_int, offset: i64) -> *mut c_void;
    fn mprotect(at: *mut c_void, length: usize, protection: c_int) -> c_int;
}

const SHUT: c_int = 0;
const READ: c_int = 1;
const READ_WRITE: c_int = 3;
/// MAP_PRIVATE, MAP_ANONYMOUS and MAP_NORESERVE of Linux.
const FLAGS: c_int = 0x2 | 0x20 | 0x4000;
/// A multiple of every page size.
const PAGE: usize = 65_536;
pub const GUARD: usize = 64;

/// Pages between two that are shut.
pub struct Pages {
    base: *mut u8,
    size: usize,
}

impl Pages {
    /// None where the system has no such memory.
    pub fn new(size: usize) -> Option<Pages> {
        let size = (size + PAGE - 1) / PAGE * PAGE;
        let whole = unsafe { mmap(ptr::null_mut(), size + 2 * PAGE, SHUT, FLAGS, -1, 0) };
        if whole as isize == -1 {
            return None;
        }
        let pages = Pages { base: unsafe { (whole as *mut u8).add(PAGE) }, size };
        pages.open(READ_WRITE).then_some(pages)
    }

    fn open(&self, protection: c_int) -> bool {
        unsafe { mprotect(self.base as *mut c_void, self.size, protection) == 0 }
    }

    pub fn base(&self) -> *mut u8 {
        self.base
    }

    /// The bytes at the beginning or at the end of the pages, with guard bytes on the open side.
    fn lend(&self, bytes: &[u8], way: Way, read_only: bool) -> Lent {
        self.open(READ_WRITE);
        let (offset, before, after) = match way {
            Way::Low => (0, 0, GUARD),
            _ => (self.size - bytes.len(), GUARD, 0),
        };
        let pointer = unsafe { self.base.add(offset) };
        let lent = Lent { pointer, length: bytes.len(), before, after, store: Store::Elsewhere };
        lent.write(bytes);
        if read_only {
            self.open(READ);
        }
        lent
    }
}

/// What keeps the bytes of a buffer alive; they are reached by its pointer alone.
#[allow(dead_code)]
enum Store {
    Words(Vec<u64>),
    Bytes(Vec<u8>),
    Elsewhere,
}

/// One lent buffer.
pub struct Lent {
    pub pointer: *mut u8,
    pub length: usize,
    before: usize,
    after: usize,
    #[allow(dead_code)]
    store: Store,
}

/// A guard byte. It depends on its place, so that bytes moved along are seen.
fn guard_byte(place: usize) -> u8 {
    (0xc5 ^ place.wrapping_mul(37)) as u8
}

impl Lent {
    fn guarded(bytes: &[u8], shift: u8) -> Lent {
        let before = GUARD + shift as usize;
        let mut store = vec![0u64; (before + bytes.len() + GUARD + 7) / 8];
        let pointer = unsafe { (store.as_mut_ptr() as *mut u8).add(before) };
        let lent = Lent { pointer, length: bytes.len(), before, after: GUARD, store: Store::Words(store) };
        lent.write(bytes);
        lent
    }

    /// An allocation of its own and of exactly this length.
    fn exact(bytes: &[u8], slot: Slot) -> Lent {
        let (pointer, store) = if slot == Slot::Numbers {
            let mut words = vec![0u64; bytes.len() / 8];
            (words.as_mut_ptr() as *mut u8, Store::Words(words))
        } else {
            let mut own = vec![0u8; bytes.len()];
            (own.as_mut_ptr(), Store::Bytes(own))
        };
        let lent = Lent { pointer, length: bytes.len(), before: 0, after: 0, store };
        lent.write(bytes);
        lent
    }

    /// Memory that another buffer or nobody holds.
    fn elsewhere(pointer: *mut u8, length: usize) -> Lent {
        Lent { pointer, length, before: 0, after: 0, store: Store::Elsewhere }
    }

    /// Writes the bytes and the guards around them.
    fn write(&self, bytes: &[u8]) {
        unsafe {
            ptr::copy_nonoverlapping(bytes.as_ptr(), self.pointer, bytes.len());
            for place in 0..self.before {
                *self.pointer.sub(1 + place) = guard_byte(place);
            }
            for place in 0..self.after {
                *self.pointer.add(self.length + place) = guard_byte(place);
            }
        }
    }

    fn guards_kept(&self) -> bool {
        unsafe {
            (0..self.before).all(|place| *self.pointer.sub(1 + place) == guard_byte(place))
                && (0..self.after).all(|place| *self.pointer.add(self.length + place) == guard_byte(place))
        }
    }

    pub fn bytes(&self) -> &[u8] {
        if self.length == 0 {
            return &[];
        }
        unsafe { std::slice::from_raw_parts(self.pointer, self.length) }
    }
}

#[derive(Debug, Clone, Copy, PartialEq, Eq)]
enum Slot {
    Map,
    Body,
    Tape,
    Memory,
    Answer,
    Numbers,
}

/// Every buffer of a call as it is lent.
pub struct Lending {
    pub map: Lent,
    pub body: Lent,
    pub tape: Lent,
    pub memory: Lent,
    pub answer: Lent,
    pub numbers: Lent,
}

/// As large as the longest map that passes test 3, and some.
const SLOT: usize = 6 * PAGE;

/// Pages for each buffer of a call, used again for the next one.
pub struct Lender {
    pages: Vec<Pages>,
}

impl Lender {
    /// Without pages, `Low` and `High` are lent as `Guarded`.
    pub fn new() -> Lender {
        Lender { pages: (0..6).filter_map(|_| Pages::new(SLOT)).collect() }
    }

    pub fn lend(&self, call: &Call) -> Lending {
        let map = self.one(call, Slot::Map, &call.map, true);
        let numbers: Vec<u8> = call.numbers.iter().flat_map(|number| number.to_ne_bytes()).collect();
        Lending {
            body: self.within(call, Slot::Body, &call.body, !call.kind.writes_body(), &map),
            tape: self.within(call, Slot::Tape, &call.tape, true, &map),
            memory: self.one(call, Slot::Memory, &call.memory, false),
            answer: self.one(call, Slot::Answer, &call.answer, false),
            numbers: self.one(call, Slot::Numbers, &numbers, false),
            map,
        }
    }

    fn one(&self, call: &Call, slot: Slot, bytes: &[u8], read_only: bool) -> Lent {
        if bytes.is_empty() && call.null {
            return Lent::elsewhere(ptr::null_mut(), 0);
        }
        match (call.way, self.pages.get(slot as usize)) {
            (Way::Low | Way::High, Some(pages)) if bytes.len() + GUARD <= SLOT => pages.lend(bytes, call.way, read_only),
            (Way::Exact, _) => Lent::exact(bytes, slot),
            (Way::Guarded(shift), _) if slot != Slot::Numbers => Lent::guarded(bytes, shift),
            _ => Lent::guarded(bytes, 0),
        }
    }

    /// A part of the map where the way is `Within`, the buffer is only read and the map has such bytes.
    fn within(&self, call: &Call, slot: Slot, bytes: &[u8], read_only: bool, map: &Lent) -> Lent {
        if call.way == Way::Within && read_only && !bytes.is_empty() {
            if let Some(at) = call.map.windows(bytes.len()).position(|part| part == bytes) {
                return Lent::elsewhere(unsafe { map.pointer.add(at) }, bytes.len());
            }
        }
        self.one(call, slot, bytes, read_only)
    }
}

impl Lending {
    /// What was changed and may never be: guards, and buffers lent for reading.
    pub fn touched(&self, call: &Call) -> Vec<&'static str> {
        let mut list = Vec::new();
        let lents = [&self.map, &self.body, &self.tape, &self.memory, &self.answer, &self.numbers];
        let names = ["by map", "by body", "by tape", "by memory", "by answer", "by numbers"];
        for (lent, name) in lents.into_iter().zip(names) {
            if !lent.guards_kept() {
                list.push(name);
            }
        }
        if self.map.bytes() != call.map {
            list.push("map");
        }
        if self.tape.bytes() != call.tape {
            list.push("tape");
        }
        if !call.kind.writes_body() && self.body.bytes() != call.body {
            list.push("body");
        }
        list
    }

    pub fn numbers(&self) -> Vec<usize> {
        let number = |word: &[u8]| usize::from_ne_bytes(word.try_into().unwrap_or_default());
        self.numbers.bytes().chunks(8).map(number).collect()
    }
}
