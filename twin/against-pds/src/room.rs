//! A room in memory between two inaccessible pages, in which images are lent.

use std::ops::Range;
use std::os::raw::{c_int, c_void};

extern "C" {
    fn mmap(
        at: *mut c_void,
        length: usize,
        access: c_int,
        kind: c_int,
        file: c_int,
        offset: i64,
    ) -> *mut c_void;
    fn mprotect(at: *mut c_void, length: usize, access: c_int) -> c_int;
    fn munmap(at: *mut c_void, length: usize) -> c_int;
}

const NO_ACCESS: c_int = 0;
const READ_AND_WRITE: c_int = 3;
const PRIVATE_AND_OF_NO_FILE: c_int = 0x22;

/// A multiple of every page size of Linux on x86-64 and aarch64; the greatest
/// image is smaller.
const PAGE: usize = 65_536;

/// Stands in every byte that is not lent.
const REST: u8 = 0xa5;
static UNTOUCHED: [u8; PAGE] = [REST; PAGE];

/// Where in the room an image lies.
#[derive(Clone, Copy, PartialEq, Eq, Debug)]
pub enum Place {
    /// The byte after the image is inaccessible.
    End,
    /// The byte before the image is inaccessible.
    Start,
    /// So many bytes from the start, for any alignment.
    At(usize),
}

pub struct Room {
    /// The first of three pages; the middle one is the room.
    pages: *mut c_void,
}

impl Room {
    pub fn new() -> Room {
        let none = std::ptr::null_mut();
        // New pages of our own: no other memory is concerned.
        let pages = unsafe { mmap(none, 3 * PAGE, NO_ACCESS, PRIVATE_AND_OF_NO_FILE, -1, 0) };
        assert!(pages as isize != -1, "no memory for the room");
        let mut room = Room { pages };
        let opened = unsafe { mprotect(room.first().cast(), PAGE, READ_AND_WRITE) };
        assert!(opened == 0, "the room cannot be opened");
        room.bytes().fill(REST);
        room
    }

    fn first(&self) -> *mut u8 {
        // The second of the three pages.
        unsafe { self.pages.cast::<u8>().add(PAGE) }
    }

    fn bytes(&mut self) -> &mut [u8] {
        // The middle page is open and ours, and is borrowed as the room is.
        unsafe { std::slice::from_raw_parts_mut(self.first(), PAGE) }
    }

    /// Puts an image into its place and lends it.
    pub fn lend(&mut self, place: Place, image: &[u8]) -> Lent<'_> {
        let start = match place {
            Place::End => PAGE - image.len(),
            Place::Start => 0,
            Place::At(start) => start,
        };
        let range = start..start + image.len();
        self.bytes()[range.clone()].copy_from_slice(image);
        Lent { room: self, range }
    }
}

impl Drop for Room {
    fn drop(&mut self) {
        // Nothing borrows from the room any more.
        unsafe { munmap(self.pages, 3 * PAGE) };
    }
}

/// An image in the room.
pub struct Lent<'a> {
    room: &'a mut Room,
    range: Range<usize>,
}

impl Lent<'_> {
    pub fn image(&mut self) -> &mut [u8] {
        let range = self.range.clone();
        &mut self.room.bytes()[range]
    }

    /// Whether the room outside the image is as it was.
    pub fn rest_is_untouched(&mut self) -> bool {
        let Range { start, end } = self.range.clone();
        let bytes = self.room.bytes();
        bytes[..start] == UNTOUCHED[..start] && bytes[end..] == UNTOUCHED[end..]
    }
}

impl Drop for Lent<'_> {
    fn drop(&mut self) {
        self.image().fill(REST);
    }
}
