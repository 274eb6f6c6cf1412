//! One call made to the library and to the twin: what each returned and every byte of what was lent.

use crate::call::Call;
use crate::paper::calls;
use crate::random::Random;
use std::hint::black_box;

unsafe extern "C" {
    fn rembilung_verdict(
        sheet: *const u8,
        sheet_len: usize,
        file: *const u8,
        file_len: usize,
        report: *mut u8,
        report_len: usize,
    ) -> u64;
    fn rembilung_write_job(numbers: *const u32, file: *mut u8, file_len: usize) -> u64;
    fn rembilung_write_support(numbers: *const u32, file: *mut u8, file_len: usize) -> u64;
    fn rembilung_read_job(file: *const u8, file_len: usize, numbers: *mut u32) -> u64;
    fn rembilung_write_book(rows: *const u32, numbers: usize, book: *mut u8, book_len: usize) -> u64;
    fn rembilung_read_book(book: *const u8, book_len: usize, rows: *mut u32, numbers: usize) -> u64;
    fn rembilung_between(
        sheet: *const u8,
        sheet_len: usize,
        mild: *const u32,
        harsh: *const u32,
        answer: *mut u32,
    ) -> u64;
    fn rembilung_cells(records: *const u8, records_len: usize, w: u32, out: *mut u8, out_len: usize) -> u64;
    fn rembilung_first_failing(
        sheet: *const u8,
        sheet_len: usize,
        book: *const u8,
        book_len: usize,
        answer: *mut u32,
    ) -> u64;
}

/// Bytes on each side of what is lent; they must stay as they were.
const GUARD: usize = 24;
/// The same in numbers of four bytes.
const BESIDE: usize = GUARD / 4;

/// What a call returned, what was lent for writing with its guards, and what was lent for reading with its guards.
#[derive(Clone, PartialEq)]
pub struct Answer {
    pub returned: u64,
    pub written: Vec<u8>,
    pub read: Vec<u8>,
}

impl Answer {
    /// The refusal number, 0 on success.
    pub fn refusal(&self) -> u64 {
        self.returned >> 32
    }

    pub fn place(&self) -> u64 {
        self.returned & 0xFFFF_FFFF
    }

    /// The bytes of the answer itself: as many as were returned, where they fit.
    pub fn bytes(&self) -> &[u8] {
        let end = (GUARD as u64 + self.returned).min((self.written.len() - GUARD) as u64) as usize;
        &self.written[GUARD..end]
    }

    /// All that was lent for writing, guards left out.
    pub fn lent(&self) -> &[u8] {
        &self.written[GUARD..self.written.len() - GUARD]
    }

    /// The same as whole numbers of four bytes.
    pub fn numbers(&self) -> Vec<u32> {
        self.lent().as_chunks().0.iter().map(|&number| u32::from_le_bytes(number)).collect()
    }
}

/// The library's answer and the twin's, from the same bytes.
pub fn both(call: &Call) -> (Answer, Answer) {
    (answer(call, &LIBRARY), answer(call, &TWIN))
}

pub fn library(call: &Call) -> Answer {
    answer(call, &LIBRARY)
}

/// The nine calls of one side.
pub struct Side {
    pub verdict: fn(&[u8], &[u8], &mut [u8]) -> u64,
    pub write_job: fn(&[u32; 25], &mut [u8]) -> u64,
    pub write_support: fn(&[u32; 13], &mut [u8]) -> u64,
    pub read_job: fn(&[u8], &mut [u32; 25]) -> u64,
    pub write_book: fn(&[u32], &mut [u8]) -> u64,
    pub read_book: fn(&[u8], &mut [u32]) -> u64,
    pub between: fn(&[u8], &[u32; 25], &[u32; 25], &mut [u32; 14]) -> u64,
    pub cells: fn(&[u8], u32, &mut [u8]) -> u64,
    pub first_failing: fn(&[u8], &[u8], &mut [u32; 2]) -> u64,
}

pub const TWIN: Side = Side {
    verdict: calls::verdict,
    write_job: calls::write_job,
    write_support: calls::write_support,
    read_job: calls::read_job,
    write_book: calls::write_book,
    read_book: calls::read_book,
    between: calls::between,
    cells: calls::cells,
    first_failing: calls::first_failing,
};

// A slice's pointer is never null and its length is that of one lent buffer, as the header asks.
pub const LIBRARY: Side = Side {
    verdict: library_verdict,
    write_job: |numbers, lent| unsafe { rembilung_write_job(numbers.as_ptr(), lent.as_mut_ptr(), lent.len()) },
    write_support: |numbers, lent| unsafe { rembilung_write_support(numbers.as_ptr(), lent.as_mut_ptr(), lent.len()) },
    read_job: |file, lent| unsafe { rembilung_read_job(file.as_ptr(), file.len(), lent.as_mut_ptr()) },
    write_book: library_write_book,
    read_book: |book, lent| unsafe { rembilung_read_book(book.as_ptr(), book.len(), lent.as_mut_ptr(), lent.len()) },
    between: |sheet, mild, harsh, lent| unsafe {
        rembilung_between(sheet.as_ptr(), sheet.len(), mild.as_ptr(), harsh.as_ptr(), lent.as_mut_ptr())
    },
    cells: |records, w, lent| unsafe {
        rembilung_cells(records.as_ptr(), records.len(), w, lent.as_mut_ptr(), lent.len())
    },
    first_failing: |sheet, book, lent| unsafe {
        rembilung_first_failing(sheet.as_ptr(), sheet.len(), book.as_ptr(), book.len(), lent.as_mut_ptr())
    },
};

/// The library's writing of a book, on slices.
pub fn library_write_book(numbers: &[u32], lent: &mut [u8]) -> u64 {
    unsafe { rembilung_write_book(numbers.as_ptr(), numbers.len(), lent.as_mut_ptr(), lent.len()) }
}

/// The library's whole call, on slices.
fn library_verdict(sheet: &[u8], file: &[u8], lent: &mut [u8]) -> u64 {
    unsafe { rembilung_verdict(sheet.as_ptr(), sheet.len(), file.as_ptr(), file.len(), lent.as_mut_ptr(), lent.len()) }
}

// The compiler takes what is lent for reading as unchanged, so that it has to be made to look again.
fn answer(call: &Call, side: &Side) -> Answer {
    match call {
        Call::Verdict { sheet, file, report, fill } => {
            let mut random = Random::new(*fill, 0);
            let mut written = random.bytes(report + 2 * GUARD);
            let (first, second) = (guarded(sheet, &mut random), guarded(file, &mut random));
            let lent = &mut written[GUARD..GUARD + report];
            let returned = (side.verdict)(inside(&first), inside(&second), lent);
            Answer { returned, written, read: black_box([first, second]).concat() }
        }
        Call::Write { numbers, file, fill } => written(counted(side.write_job), numbers, *file, *fill),
        Call::WriteSupport { numbers, file, fill } => written(counted(side.write_support), numbers, *file, *fill),
        Call::WriteBook { numbers, book, fill } => written(side.write_book, numbers, *book, *fill),
        Call::Read { file, fill } => {
            let into_25 =
                |file: &[u8], lent: &mut [u32]| (side.read_job)(file, lent.try_into().expect("25 numbers are lent"));
            read(into_25, file, 25, *fill)
        }
        Call::ReadBook { book, numbers, fill } => read(side.read_book, book, *numbers, *fill),
        Call::Between { sheet, mild, harsh, fill } => between(side, sheet, [mild, harsh], *fill),
        Call::Cells { records, w, out, fill } => cells(side, records, *w, *out, *fill),
        Call::FirstFailing { sheet, book, fill } => first_failing(side, sheet, book, *fill),
    }
}

/// A call that takes so many numbers, on a slice.
fn counted<const N: usize>(call: fn(&[u32; N], &mut [u8]) -> u64) -> impl Fn(&[u32], &mut [u8]) -> u64 {
    move |numbers, lent| call(numbers.try_into().expect("as many numbers are lent"), lent)
}

/// The answer of a call that turns numbers into bytes.
fn written(call: impl Fn(&[u32], &mut [u8]) -> u64, numbers: &[u32], length: usize, fill: u64) -> Answer {
    let mut random = Random::new(fill, 0);
    let mut written = random.bytes(length + 2 * GUARD);
    let around = guarded_numbers(numbers, &mut random);
    let returned = call(inside_numbers(&around), &mut written[GUARD..GUARD + length]);
    Answer { returned, written, read: to_bytes(&black_box(around)) }
}

/// The answer of a call that turns bytes into numbers.
fn read(call: impl Fn(&[u8], &mut [u32]) -> u64, bytes: &[u8], count: usize, fill: u64) -> Answer {
    let mut random = Random::new(fill, 0);
    let mut numbers = some_numbers(count, &mut random);
    let first = guarded(bytes, &mut random);
    let returned = call(inside(&first), &mut numbers[BESIDE..BESIDE + count]);
    Answer { returned, written: to_bytes(&numbers), read: black_box(first) }
}

/// The answer of the call on a mild and a harsh job.
fn between(side: &Side, sheet: &[u8], jobs: [&[u32; 25]; 2], fill: u64) -> Answer {
    let mut random = Random::new(fill, 0);
    let mut numbers = some_numbers(14, &mut random);
    let sheet = guarded(sheet, &mut random);
    let jobs = jobs.map(|job| guarded_numbers(job, &mut random));
    let [mild, harsh] = [0, 1].map(|job: usize| inside_numbers(&jobs[job]).try_into().expect("25 numbers are lent"));
    let lent = (&mut numbers[BESIDE..BESIDE + 14]).try_into().expect("14 numbers are lent");
    let returned = (side.between)(inside(&sheet), mild, harsh, lent);
    let (sheet, [mild, harsh]) = black_box((sheet, jobs));
    Answer { returned, written: to_bytes(&numbers), read: [sheet, to_bytes(&mild), to_bytes(&harsh)].concat() }
}

/// The answer of the call on a load cell's records.
fn cells(side: &Side, records: &[u8], w: u32, out: usize, fill: u64) -> Answer {
    let mut random = Random::new(fill, 0);
    let mut written = random.bytes(out + 2 * GUARD);
    let records = guarded(records, &mut random);
    let returned = (side.cells)(inside(&records), w, &mut written[GUARD..GUARD + out]);
    Answer { returned, written, read: black_box(records) }
}

/// The answer of the call on the first failing row of a book.
fn first_failing(side: &Side, sheet: &[u8], book: &[u8], fill: u64) -> Answer {
    let mut random = Random::new(fill, 0);
    let mut numbers = some_numbers(2, &mut random);
    let (sheet, book) = (guarded(sheet, &mut random), guarded(book, &mut random));
    let lent = (&mut numbers[BESIDE..BESIDE + 2]).try_into().expect("two numbers are lent");
    let returned = (side.first_failing)(inside(&sheet), inside(&book), lent);
    Answer { returned, written: to_bytes(&numbers), read: black_box([sheet, book]).concat() }
}

/// Pseudo-random numbers: as many as are lent, and the guards.
fn some_numbers(count: usize, random: &mut Random) -> Vec<u32> {
    (0..count + 2 * BESIDE).map(|_| random.next() as u32).collect()
}

pub fn to_bytes(numbers: &[u32]) -> Vec<u8> {
    numbers.iter().flat_map(|number| number.to_le_bytes()).collect()
}

fn guarded(bytes: &[u8], random: &mut Random) -> Vec<u8> {
    let mut around = random.bytes(bytes.len() + 2 * GUARD);
    around[GUARD..GUARD + bytes.len()].copy_from_slice(bytes);
    around
}

fn guarded_numbers(numbers: &[u32], random: &mut Random) -> Vec<u32> {
    let mut around = some_numbers(numbers.len(), random);
    around[BESIDE..BESIDE + numbers.len()].copy_from_slice(numbers);
    around
}

fn inside_numbers(guarded: &[u32]) -> &[u32] {
    &guarded[BESIDE..guarded.len() - BESIDE]
}

fn inside(guarded: &[u8]) -> &[u8] {
    &guarded[GUARD..guarded.len() - GUARD]
}
