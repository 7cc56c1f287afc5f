//! mutree.rs: a safe wrapper over c/nand.h and c/mutree.h, with nothing but std. Copy it beside the firmware's own files and link nand.o and
//! libmutree.a. The chip is whatever keeps the trait `Chip`; an `Index` owns it, the two buffers in RAM and the record of the opened index, so that
//! no call but `read`, `open` and `format` judges the image.
//!
//! A panic in a method of `Chip` ends the process: it can't pass through C.

use std::ffi::c_void;
use std::ops::RangeInclusive;

/// The two kinds of chip, by the numbers of c/mutree.h.
#[derive(Clone, Copy, Debug, PartialEq, Eq)]
pub enum Geometry {
    Small = 0,
    Large = 1,
}

impl Geometry {
    pub fn pages(self) -> usize {
        [32, 64][self as usize]
    }
    pub fn main_bytes(self) -> usize {
        [512, 2048][self as usize]
    }
    pub fn spare_bytes(self) -> usize {
        [16, 64][self as usize]
    }
    pub fn page_bytes(self) -> usize {
        self.main_bytes() + self.spare_bytes()
    }
    pub fn block_bytes(self) -> usize {
        self.pages() * self.page_bytes()
    }
}

/// A NAND chip. An error, any number but 0, says that the store was not made.
pub trait Chip {
    fn program(&mut self, page: u32, main: &[u8], spare: &[u8]) -> Result<(), i32>;
    fn erase(&mut self, block: u32) -> Result<(), i32>;
    fn read(&mut self, page: u32, main: &mut [u8], spare: &mut [u8]) -> Result<(), i32>;
}

/// What was stored by a call.
#[derive(Clone, Copy, Debug, PartialEq, Eq)]
pub struct Made {
    pub programmed: u32,
    pub erased: u32,
}

/// Every answer but DONE.
#[derive(Clone, Copy, Debug, PartialEq, Eq)]
pub enum Refusal {
    Length,
    Damaged { rule: u32, page: u32 },
    Worn,
    Absent,
    Height,
    Room,
    /// The index is not opened: it was neither read nor formatted, or a patrol mended something. Call `open`.
    Stale,
    /// The chip failed with this number. Index and chip are the same, with the stores made before it and the old map.
    Failed { made: Made, failure: i32 },
    /// A number that this wrapper does not know.
    Other(u32),
}

/// How many halves a patrol found clean, with a flipped data bit, with a flipped code bit, beyond repair.
pub type Found = [u32; 4];

/// What nand.c keeps beside the image.
#[repr(C)]
#[derive(Clone, Copy)]
struct Kept {
    opened: i32,
    record: [u8; 24],
    filled: [u8; 1024],
    stored: [u8; 1024],
    live: [u32; 2048],
}

#[repr(C)]
struct RawNand {
    geometry: u32,
    image: *mut u8,
    copy: *mut u8,
    length: usize,
    context: *mut c_void,
    program: extern "C" fn(*mut c_void, u32, *const u8, *const u8) -> i32,
    erase: extern "C" fn(*mut c_void, u32) -> i32,
    read: extern "C" fn(*mut c_void, u32, *mut u8, *mut u8) -> i32,
    kept: Kept,
}

#[repr(C)]
struct RawResult {
    answer: u32,
    programmed: u32,
    erased: u32,
    rule: u32,
    page: u32,
    failure: i32,
}

extern "C" {
    fn mutree_nand_read(nand: *mut RawNand) -> RawResult;
    fn mutree_nand_open(nand: *mut RawNand) -> RawResult;
    fn mutree_nand_patrol(nand: *mut RawNand, found: *mut u32) -> RawResult;
    fn mutree_nand_format(nand: *mut RawNand) -> RawResult;
    fn mutree_nand_insert(nand: *mut RawNand, key: u32, address: u32) -> RawResult;
    fn mutree_nand_delete(nand: *mut RawNand, key: u32) -> RawResult;
    fn mutree_lookup_opened(
        geometry: u32, image: *const u8, length: usize, record: *const u8, record_length: usize, key: u32, result: *mut u8,
        result_length: usize,
    ) -> u32;
    fn mutree_list_opened(
        geometry: u32, image: *const u8, length: usize, record: *const u8, record_length: usize, low: u32, high: u32, pairs: *mut u32,
        numbers: usize, result: *mut u8, result_length: usize,
    ) -> u32;
}

/// What the callbacks are given.
struct Context<'a, C> {
    geometry: Geometry,
    chip: &'a mut C,
}

fn number_of(result: Result<(), i32>) -> i32 {
    match result {
        Ok(()) => 0,
        Err(0) => -1,
        Err(failure) => failure,
    }
}

extern "C" fn program<C: Chip>(context: *mut c_void, page: u32, main: *const u8, spare: *const u8) -> i32 {
    // SAFETY: nand.c hands back the context of this call, and pointers to a page's main and spare bytes.
    unsafe {
        let context = &mut *(context as *mut Context<C>);
        let main = std::slice::from_raw_parts(main, context.geometry.main_bytes());
        let spare = std::slice::from_raw_parts(spare, context.geometry.spare_bytes());
        number_of(context.chip.program(page, main, spare))
    }
}

extern "C" fn erase<C: Chip>(context: *mut c_void, block: u32) -> i32 {
    // SAFETY: as above.
    unsafe { number_of((*(context as *mut Context<C>)).chip.erase(block)) }
}

extern "C" fn read<C: Chip>(context: *mut c_void, page: u32, main: *mut u8, spare: *mut u8) -> i32 {
    // SAFETY: as above; the two pieces do not overlap.
    unsafe {
        let context = &mut *(context as *mut Context<C>);
        let main = std::slice::from_raw_parts_mut(main, context.geometry.main_bytes());
        let spare = std::slice::from_raw_parts_mut(spare, context.geometry.spare_bytes());
        number_of(context.chip.read(page, main, spare))
    }
}

/// The six numbers that a call of mutree.h wrote.
fn numbers(result: &[u8; 24]) -> [u32; 6] {
    std::array::from_fn(|i| u32::from_le_bytes([result[4 * i], result[4 * i + 1], result[4 * i + 2], result[4 * i + 3]]))
}

fn refusal(answer: u32, rule: u32, page: u32) -> Refusal {
    match answer {
        1 => Refusal::Length,
        2 => Refusal::Damaged { rule, page },
        3 => Refusal::Worn,
        4 => Refusal::Absent,
        5 => Refusal::Height,
        6 => Refusal::Room,
        8 => Refusal::Stale,
        other => Refusal::Other(other),
    }
}

fn settled(raw: RawResult) -> Result<Made, Refusal> {
    let made = Made { programmed: raw.programmed, erased: raw.erased };
    match raw.answer {
        0 => Ok(made),
        64 => Err(Refusal::Failed { made, failure: raw.failure }),
        answer => Err(refusal(answer, raw.rule, raw.page)),
    }
}

/// An index in RAM and on its chip.
pub struct Index<C: Chip> {
    geometry: Geometry,
    chip: C,
    image: Vec<u8>,
    copy: Vec<u8>,
    kept: Box<Kept>,
}

impl<C: Chip> Index<C> {
    /// An index of so many blocks; nothing is read yet. `read` or `format` comes next.
    pub fn new(geometry: Geometry, blocks: usize, chip: C) -> Self {
        let length = blocks * geometry.block_bytes();
        let kept = Kept { opened: 0, record: [0; 24], filled: [0; 1024], stored: [0; 1024], live: [0; 2048] };
        Index { geometry, chip, image: vec![255; length], copy: vec![255; length], kept: Box::new(kept) }
    }

    pub fn chip_mut(&mut self) -> &mut C {
        &mut self.chip
    }

    pub fn into_chip(self) -> C {
        self.chip
    }

    /// One call of nand.c on image, copy and chip, which nobody else holds meanwhile.
    fn call(&mut self, run: impl FnOnce(*mut RawNand) -> RawResult) -> Result<Made, Refusal> {
        let mut context = Context { geometry: self.geometry, chip: &mut self.chip };
        let mut nand = RawNand {
            geometry: self.geometry as u32,
            image: self.image.as_mut_ptr(),
            copy: self.copy.as_mut_ptr(),
            length: self.image.len(),
            context: &mut context as *mut Context<C> as *mut c_void,
            program: program::<C>,
            erase: erase::<C>,
            read: read::<C>,
            kept: *self.kept,
        };
        let raw = run(&mut nand);
        *self.kept = nand.kept;
        settled(raw)
    }

    // SAFETY of the calls below: `call` gives a nand whose buffers have its length and whose callbacks fit its context.
    /// Reads the chip and opens the index. `Damaged`: it is read all the same, and may be patrolled.
    pub fn read(&mut self) -> Result<Made, Refusal> {
        self.call(|nand| unsafe { mutree_nand_read(nand) })
    }

    /// Judges the index in RAM and keeps its record.
    pub fn open(&mut self) -> Result<Made, Refusal> {
        self.call(|nand| unsafe { mutree_nand_open(nand) })
    }

    pub fn patrol(&mut self) -> Result<Found, Refusal> {
        let mut found = [0; 4];
        self.call(|nand| unsafe { mutree_nand_patrol(nand, found.as_mut_ptr()) })?;
        Ok(found)
    }

    pub fn format(&mut self) -> Result<Made, Refusal> {
        self.call(|nand| unsafe { mutree_nand_format(nand) })
    }

    pub fn insert(&mut self, key: u32, address: u32) -> Result<Made, Refusal> {
        self.call(|nand| unsafe { mutree_nand_insert(nand, key, address) })
    }

    pub fn delete(&mut self, key: u32) -> Result<Made, Refusal> {
        self.call(|nand| unsafe { mutree_nand_delete(nand, key) })
    }

    /// The record, where the index is opened.
    fn record(&self) -> Result<&[u8; 24], Refusal> {
        if self.kept.opened != 0 { Ok(&self.kept.record) } else { Err(Refusal::Stale) }
    }

    pub fn lookup(&self, key: u32) -> Result<Option<u32>, Refusal> {
        let mut result = [0u8; 24];
        let record = self.record()?;
        // SAFETY: image, record and result have the lengths given; image and record are only read.
        unsafe {
            mutree_lookup_opened(self.geometry as u32, self.image.as_ptr(), self.image.len(), record.as_ptr(), 24, key, result.as_mut_ptr(), 24)
        };
        let [answer, address, _, _, rule, page] = numbers(&result);
        match refusal(answer, rule, page) {
            Refusal::Absent => Ok(None),
            _ if answer == 0 => Ok(Some(address)),
            refused => Err(refused),
        }
    }

    /// The pairs whose keys lie in the range, keys rising.
    pub fn list(&self, keys: RangeInclusive<u32>) -> Result<Vec<(u32, u32)>, Refusal> {
        let count = self.list_into(&keys, &mut [])?;
        let mut pairs = vec![0u32; 2 * count];
        self.list_into(&keys, &mut pairs)?;
        Ok(pairs.chunks(2).map(|pair| (pair[0], pair[1])).collect())
    }

    /// Fills the buffer, and returns how many pairs there are.
    fn list_into(&self, keys: &RangeInclusive<u32>, pairs: &mut [u32]) -> Result<usize, Refusal> {
        let mut result = [0u8; 24];
        let record = self.record()?;
        // SAFETY: each buffer has the length given; image and record are only read.
        unsafe {
            mutree_list_opened(
                self.geometry as u32, self.image.as_ptr(), self.image.len(), record.as_ptr(), 24, *keys.start(), *keys.end(),
                pairs.as_mut_ptr(), pairs.len(), result.as_mut_ptr(), 24,
            )
        };
        match numbers(&result) {
            [0, exist, ..] => Ok(exist as usize),
            [answer, _, _, _, rule, page] => Err(refusal(answer, rule, page)),
        }
    }
}
