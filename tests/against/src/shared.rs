//! A file in memory that another program maps too.

use std::fs::{remove_file, OpenOptions};
use std::os::fd::AsRawFd;
use std::path::{Path, PathBuf};
use std::ptr::{copy_nonoverlapping, null_mut};
use std::sync::atomic::{AtomicU64, Ordering};

// The standard library maps no files, but the C library that it stands on does.
extern "C" {
    fn mmap(at: *mut u8, length: usize, access: i32, how: i32, file: i32, from: i64) -> *mut u8;
    fn munmap(at: *mut u8, length: usize) -> i32;
}

const READ_AND_WRITE: i32 = 3;
const SHARED: i32 = 1;

pub struct Shared {
    at: *mut u8,
    length: usize,
    name: PathBuf,
}

static MADE: AtomicU64 = AtomicU64::new(0);

impl Shared {
    pub fn new(length: usize) -> Shared {
        let number = MADE.fetch_add(1, Ordering::Relaxed);
        let name = std::env::temp_dir().join(format!("against-{}-{number}", std::process::id()));
        let file = OpenOptions::new().read(true).write(true).create_new(true).open(&name);
        let file = file.unwrap_or_else(|why| panic!("{} cannot be made: {why}", name.display()));
        file.set_len(length as u64).expect("the file takes its length");
        // SAFETY: a new mapping of an open file touches no memory in use.
        let at = unsafe { mmap(null_mut(), length, READ_AND_WRITE, SHARED, file.as_raw_fd(), 0) };
        assert!(at as isize != -1, "{} cannot be mapped", name.display());
        Shared { at, length, name }
    }

    pub fn name(&self) -> &Path {
        &self.name
    }

    pub fn write(&mut self, place: usize, bytes: &[u8]) {
        assert!(place + bytes.len() <= self.length);
        // SAFETY: the place lies in the mapping, and the other program waits for its turn.
        unsafe { copy_nonoverlapping(bytes.as_ptr(), self.at.add(place), bytes.len()) }
    }

    pub fn read(&self, place: usize, bytes: &mut [u8]) {
        assert!(place + bytes.len() <= self.length);
        // SAFETY: as for write.
        unsafe { copy_nonoverlapping(self.at.add(place), bytes.as_mut_ptr(), bytes.len()) }
    }

    /// T must be plain numbers.
    pub fn put<T: Copy>(&mut self, place: usize, value: T) {
        assert!(place + size_of::<T>() <= self.length);
        // SAFETY: as for write.
        unsafe { self.at.add(place).cast::<T>().write_unaligned(value) }
    }

    /// T must be plain numbers, so that any bytes are one.
    pub fn get<T: Copy>(&self, place: usize) -> T {
        assert!(place + size_of::<T>() <= self.length);
        // SAFETY: as for write.
        unsafe { self.at.add(place).cast::<T>().read_unaligned() }
    }
}

impl Drop for Shared {
    fn drop(&mut self) {
        let _ = remove_file(&self.name);
        // SAFETY: nothing points into the mapping any more.
        unsafe { munmap(self.at, self.length) };
    }
}
