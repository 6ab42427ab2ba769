//! How a slice crosses to the library: as it lies, or as a copy right beside a protected page, so that a touch of any byte next to it
//! ends the process. What is lent only to be read is then also protected against writing.

use std::cell::RefCell;
use std::ffi::{c_int, c_void};
use std::marker::PhantomData;
use std::ops::{Deref, DerefMut};
use std::slice;
use std::sync::atomic::{AtomicU8, Ordering};

/// Where a lent slice lies.
#[derive(Debug, Clone, Copy, PartialEq, Eq)]
#[repr(u8)]
pub enum Place {
    /// In the lender's own memory.
    Own,
    /// Its first byte comes right after a protected page.
    Begins,
    /// Its last byte comes right before one.
    Ends,
}

static PLACE: AtomicU8 = AtomicU8::new(Place::Own as u8);

/// From now on every slice of this process is lent at `place`.
pub fn at(place: Place) {
    PLACE.store(place as u8, Ordering::Relaxed);
}

mod system {
    use super::{c_int, c_void};

    pub const NONE: c_int = 0;
    pub const READ: c_int = 1;
    pub const READ_WRITE: c_int = 3;
    /// MAP_PRIVATE and MAP_ANONYMOUS.
    pub const PRIVATE_ANONYMOUS: c_int = 0x22;

    unsafe extern "C" {
        pub fn mmap(
            address: *mut c_void,
            length: usize,
            protection: c_int,
            flags: c_int,
            file: c_int,
            offset: i64,
        ) -> *mut c_void;
        pub fn mprotect(address: *mut c_void, length: usize, protection: c_int) -> c_int;
        pub fn munmap(address: *mut c_void, length: usize) -> c_int;
    }
}

/// A multiple of every page size in use.
const MARGIN: usize = 1 << 16;
/// More than any slice of the runs needs.
const ROOM: usize = 1 << 20;

/// Memory with a protected margin on either side.
struct Room(*mut u8);

impl Room {
    fn new() -> Room {
        let null = std::ptr::null_mut();
        let flags = system::PRIVATE_ANONYMOUS;
        // SAFETY: a new mapping at an address of the system's choice touches nothing that is there.
        let all = unsafe { system::mmap(null, ROOM + 2 * MARGIN, system::NONE, flags, -1, 0) };
        assert_ne!(all as isize, -1, "no memory is mapped");
        // SAFETY: the middle lies within the mapping.
        let room = Room(unsafe { all.cast::<u8>().add(MARGIN) });
        room.protect(system::READ_WRITE);
        room
    }

    fn protect(&self, protection: c_int) {
        // SAFETY: the room is mapped, and nobody has a reference into it while its protection changes.
        let done = unsafe { system::mprotect(self.0.cast(), ROOM, protection) };
        assert_eq!(done, 0, "the protection is set");
    }

    /// Where `bytes` bytes are to lie.
    fn place(&self, bytes: usize) -> *mut u8 {
        assert!(bytes <= ROOM, "{bytes} bytes have no room");
        let begins = PLACE.load(Ordering::Relaxed) == Place::Begins as u8;
        // SAFETY: not past the room's end.
        unsafe { self.0.add(if begins { 0 } else { ROOM - bytes }) }
    }
}

impl Drop for Room {
    fn drop(&mut self) {
        // SAFETY: the mapping that `new` made, which nobody uses any more.
        unsafe { system::munmap(self.0.sub(MARGIN).cast(), ROOM + 2 * MARGIN) };
    }
}

thread_local! {
    /// Rooms that are free.
    static ROOMS: RefCell<Vec<Room>> = const { RefCell::new(Vec::new()) };
}

/// A slice lent for one call; what the call wrote is back in the slice when it is dropped.
pub struct Lent<'a, T: Copy> {
    slice: *mut T,
    length: usize,
    written: bool,
    /// The room that has the copy, and the copy.
    copy: Option<(Room, *mut T)>,
    lender: PhantomData<&'a mut [T]>,
}

/// Lends a slice to be written.
pub fn write<T: Copy>(slice: &mut [T]) -> Lent<'_, T> {
    Lent::new(slice.as_mut_ptr(), slice.len(), true)
}

/// Lends a slice to be read.
pub fn read<T: Copy>(slice: &[T]) -> Lent<'_, T> {
    Lent::new(slice.as_ptr().cast_mut(), slice.len(), false)
}

impl<T: Copy> Lent<'_, T> {
    fn new(slice: *mut T, length: usize, written: bool) -> Self {
        let guarded = PLACE.load(Ordering::Relaxed) != Place::Own as u8;
        let copy = guarded.then(|| {
            let room = ROOMS.with_borrow_mut(Vec::pop).unwrap_or_else(Room::new);
            let at: *mut T = room.place(length * size_of::<T>()).cast();
            // SAFETY: the slice is borrowed, the room has as many bytes there, and a margin is a multiple of any alignment.
            unsafe { at.copy_from_nonoverlapping(slice, length) };
            if !written {
                room.protect(system::READ);
            }
            (room, at)
        });
        Lent {
            slice,
            length,
            written,
            copy,
            lender: PhantomData,
        }
    }

    /// Where the library finds it.
    pub fn at(&self) -> *mut T {
        self.copy.as_ref().map_or(self.slice, |copy| copy.1)
    }
}

impl<T: Copy> Deref for Lent<'_, T> {
    type Target = [T];

    fn deref(&self) -> &[T] {
        // SAFETY: the lender's slice, or its copy in a room that is this one's alone.
        unsafe { slice::from_raw_parts(self.at(), self.length) }
    }
}

impl<T: Copy> DerefMut for Lent<'_, T> {
    fn deref_mut(&mut self) -> &mut [T] {
        assert!(self.written, "lent to be read");
        // SAFETY: as above; it was lent to be written.
        unsafe { slice::from_raw_parts_mut(self.at(), self.length) }
    }
}

impl<T: Copy> Drop for Lent<'_, T> {
    fn drop(&mut self) {
        let Some((room, at)) = self.copy.take() else {
            return;
        };
        if self.written {
            // SAFETY: as in `new`; the slice was borrowed to be written.
            unsafe { self.slice.copy_from_nonoverlapping(at, self.length) };
        } else {
            room.protect(system::READ_WRITE);
        }
        ROOMS.with_borrow_mut(|rooms| rooms.push(room));
    }
}
