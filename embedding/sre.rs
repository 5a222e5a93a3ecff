//! The structs and functions of `sre.h` that a search in a `&str` needs, for Rust (docs/EMBEDDING.md).
//!
//! Copy this file, write `mod sre;`, and link `libsre_c.a` of the same release.
#![allow(dead_code)] // fields that only the engine reads or writes

use std::ffi::c_void;
use std::mem::{offset_of, size_of};
use std::ptr::null_mut;

/// A list of a table. Its pointer is aligned and not null even if the list is empty.
#[repr(C)]
#[derive(Clone, Copy)]
pub struct Pairs {
    pairs: usize,
    count: usize,
}

const NO_PAIRS: Pairs = Pairs { pairs: 8, count: 0 };

/// The Unicode tables `lower`, `upper`, `alnum` and `digits`, and the result of their check.
#[repr(C)]
pub struct Table {
    lists: [Pairs; 4],
    error: u32,
    checked: bool,
}

/// The table that knows only ASCII.
pub const ASCII: Table = Table { lists: [NO_PAIRS; 4], error: 0, checked: false };

/// What the check of a code computes; only the engine reads it.
#[repr(C)]
#[derive(Default)]
struct Hints {
    numbers: [u32; 5],
    flags: [bool; 5],
}

/// A checked code: bytecode and its table.
#[repr(C)]
struct Code<'a> {
    words: *const u32,
    words_count: usize,
    table: &'a Table,
    place: usize,
    error: u32,
    hints: Hints,
    checked: bool,
}

/// A compiled pattern with its table, and the DFAs that its searches have built. One thread at a time searches by it.
#[repr(C)]
pub struct Pattern<'a> {
    code: Code<'a>,
    kept: *mut c_void,
    is_kept: bool,
    reads_utf8: bool,
}

// SAFETY: the bytecode and the table are borrowed and do not change, and any thread may use and free what is kept.
unsafe impl Send for Pattern<'_> {}

#[repr(C)]
struct Asked {
    start: usize,
    end: usize,
    steps: u64,
    search: bool,
    match_all: bool,
    must_advance: bool,
    non_boundary: bool,
}

/// A match: positions in characters, and the steps that are left.
#[repr(C)]
#[derive(Default)]
pub struct Found {
    pub start: usize,
    pub end: usize,
    pub last_index: isize,
    pub marks: usize,
    pub steps: u64,
}

/// `SRE_ABI` of the `sre.h` whose structs are above.
pub const ABI: u32 = 849984695;

// The layout of `sre.h`: the engine would write past the end of a struct that is shorter.
const _: () = {
    assert!(size_of::<Table>() == 72 && offset_of!(Table, error) == 64 && offset_of!(Table, checked) == 68);
    assert!(size_of::<Hints>() == 28 && offset_of!(Hints, flags) == 20);
    assert!(size_of::<Code>() == 72 && offset_of!(Code, place) == 24 && offset_of!(Code, error) == 32);
    assert!(offset_of!(Code, hints) == 36 && offset_of!(Code, checked) == 64);
    assert!(size_of::<Pattern>() == 88 && offset_of!(Pattern, kept) == 72 && offset_of!(Pattern, is_kept) == 80);
    assert!(offset_of!(Pattern, reads_utf8) == 81);
    assert!(size_of::<Asked>() == 32 && offset_of!(Asked, steps) == 16 && offset_of!(Asked, search) == 24);
    assert!(size_of::<Found>() == 40 && offset_of!(Found, last_index) == 16 && offset_of!(Found, steps) == 32);
};

unsafe extern "C" {
    safe fn sre_abi() -> u32;
    fn sre_check_code(code: &mut Code<'_>) -> u32;
    fn sre_step_bound(code: &Code<'_>, characters: usize, steps: &mut u64) -> u32;
    fn sre_pattern_answer_utf8(
        pattern: &mut Pattern<'_>,
        text: *const u8,
        text_count: usize,
        asked: &Asked,
        found: &mut Found,
        marks: *mut usize,
        marks_count: usize,
    ) -> u32;
    fn sre_pattern_free(pattern: &mut Pattern<'_>);
}

impl<'a> Pattern<'a> {
    /// The pattern of checked bytecode, or the status with which the engine rejects it.
    ///
    /// # Panics
    ///
    /// If the library has another ABI than this file.
    pub fn check(words: &'a [u32], table: &'a Table) -> Result<Self, u32> {
        assert!(sre_abi() == ABI, "libsre_c.a has the ABI {}, and sre.rs needs {ABI}", sre_abi());
        let (words, words_count) = (words.as_ptr(), words.len());
        let hints = Hints::default();
        let mut code = Code { words, words_count, table, place: 0, error: 0, hints, checked: false };
        // SAFETY: the code borrows the bytecode and the table.
        let status = unsafe { sre_check_code(&mut code) };
        let pattern = Pattern { code, kept: null_mut(), is_kept: false, reads_utf8: false };
        if status == 1 { Ok(pattern) } else { Err(status) }
    }

    /// A step limit that suffices for any search in a text of at most so many code points, unless an allocation fails;
    /// or the status, which is 0 if the code has no such bound.
    pub fn step_bound(&self, characters: usize) -> Result<u64, u32> {
        let mut steps = 0;
        // SAFETY: the structs have the layout of `sre.h`.
        let status = unsafe { sre_step_bound(&self.code, characters, &mut steps) };
        if status == 1 { Ok(steps) } else { Err(status) }
    }

    /// The first match in a text, with the start and end of each group in `marks`; or the status, which is 0 if there
    /// is no match. `marks` has room for two positions a group. Positions count code points.
    pub fn search(&mut self, text: &str, steps: u64, marks: &mut [usize]) -> Result<Found, u32> {
        let asked = Asked {
            start: 0,
            end: usize::MAX,
            steps,
            search: true,
            match_all: false,
            must_advance: false,
            non_boundary: false,
        };
        let mut found = Found::default();
        let (text, text_count, room, marks) = (text.as_ptr(), text.len(), marks.len(), marks.as_mut_ptr());
        // SAFETY: pointers and counts come from slices, and the structs have the layout of `sre.h`.
        let status = unsafe { sre_pattern_answer_utf8(self, text, text_count, &asked, &mut found, marks, room) };
        if status == 1 { Ok(found) } else { Err(status) }
    }
}

impl Drop for Pattern<'_> {
    fn drop(&mut self) {
        // SAFETY: `kept` is null or what a search has kept.
        unsafe { sre_pattern_free(self) }
    }
}
