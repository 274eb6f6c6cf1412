//! Marked cases of books: those worked out by hand, and two that a program finds.

use crate::compare::library_write_book;
use crate::hand_books;
use crate::inputs::books::MOST;
use crate::marked::{Cases, J, case};
use crate::paper::calls;
use crate::paper::file::groups;
use crate::paper::job::range;
use std::ffi::c_void;

pub fn cases() -> Cases {
    [hand_books::cases(), longest(), too_many_for_the_place()].concat()
}

/// The bytes of every field's greatest value in a family, which is the most that a row takes.
fn longest_row(family: u32) -> usize {
    let job = J.with(1, family);
    (1..=25).map(|field| groups(*range(&job, field).end()).len()).sum()
}

fn longest() -> Cases {
    vec![case("no book is longer than 8,402 bytes", 2 + 200 * longest_row(1).max(longest_row(2)) == MOST)]
}

unsafe extern "C" {
    fn mmap(at: *mut c_void, length: usize, protection: i32, flags: i32, file: i32, offset: i64) -> *mut c_void;
    fn munmap(at: *mut c_void, length: usize) -> i32;
}

// So many rows are lent as pages that are read at most, private and of no file, so that they cost no memory.
fn too_many_for_the_place() -> Cases {
    let (read, private_of_no_file, numbers) = (1, 0x22, 25 * ((1usize << 32) + 5));
    let start = match cfg!(target_os = "linux") {
        true => unsafe { mmap(std::ptr::null_mut(), numbers * 4, read, private_of_no_file, -1, 0) },
        false => usize::MAX as *mut c_void,
    };
    if start as usize == usize::MAX {
        println!("{numbers} numbers could not be lent here; their refusal was not tried");
        return Vec::new();
    }
    let rows = unsafe { std::slice::from_raw_parts(start as *const u32, numbers) };
    let returned = [library_write_book(rows, &mut []), calls::write_book(rows, &mut [])];
    unsafe { munmap(start, numbers * 4) };
    vec![case(
        "more rows than a place can name are named by 4,294,967,295",
        returned == [(10 << 32) + 4_294_967_295; 2],
    )]
}
