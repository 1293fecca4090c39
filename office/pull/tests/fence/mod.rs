//! Memory for the bytes that a call is lent, which shows a write past its end.

pub use memory::Fenced;

/// Memory between two pages that nobody may touch.
#[cfg(target_os = "linux")]
mod memory {
    use std::ffi::{c_int, c_void};

    const PAGE: usize = 4096;
    /// Room for the longest file, and canaries.
    const ROOM: usize = 4 * PAGE;
    const CANARIES: usize = 64;
    const NOBODY: c_int = 0;
    const READ_WRITE: c_int = 3;
    const PRIVATE_ANONYMOUS: c_int = 0x22;

    // Of the C library that std links.
    extern "C" {
        fn mmap(
            at: *mut c_void,
            length: usize,
            protection: c_int,
            flags: c_int,
            file: c_int,
            offset: i64,
        ) -> *mut c_void;
        fn mprotect(at: *mut c_void, length: usize, protection: c_int) -> c_int;
    }

    pub struct Fenced {
        memory: &'static mut [u8],
        canary: u8,
        /// Where the canaries lie.
        canaries: std::ops::Range<usize>,
    }

    impl Fenced {
        pub fn new() -> Fenced {
            // SAFETY: new memory of the asked length, never given back; the
            // slice is the part that may be touched.
            let memory = unsafe {
                let all =
                    mmap(std::ptr::null_mut(), ROOM + 2 * PAGE, NOBODY, PRIVATE_ANONYMOUS, -1, 0)
                        as *mut u8;
                assert!(all as isize != -1, "mmap");
                let room = all.add(PAGE);
                assert_eq!(mprotect(room as *mut c_void, ROOM, READ_WRITE), 0, "mprotect");
                std::slice::from_raw_parts_mut(room, ROOM)
            };
            Fenced { memory, canary: 0, canaries: 0..0 }
        }

        /// `length` bytes at the front or at the end, with canaries on their
        /// open side.
        pub fn lend(&mut self, length: usize, front: bool, canary: u8) -> &'static mut [u8] {
            assert!(length + CANARIES <= ROOM, "a file too long for the fence");
            let start = if front { 0 } else { ROOM - length };
            self.canary = canary;
            self.canaries = if front { length..length + CANARIES } else { start - CANARIES..start };
            self.memory[self.canaries.clone()].fill(canary);
            // SAFETY: the memory stays, and nothing else touches these bytes
            // until the next `lend`: the canaries lie beside them.
            unsafe { std::slice::from_raw_parts_mut(self.memory.as_mut_ptr().add(start), length) }
        }

        /// Whether the canaries are as they were.
        pub fn whole(&self) -> bool {
            self.memory[self.canaries.clone()].iter().all(|&b| b == self.canary)
        }
    }
}

/// Where there are no fences: canaries on both sides.
#[cfg(not(target_os = "linux"))]
mod memory {
    const CANARIES: usize = 64;

    pub struct Fenced {
        memory: Vec<u8>,
        canary: u8,
        length: usize,
    }

    impl Fenced {
        pub fn new() -> Fenced {
            Fenced { memory: Vec::new(), canary: 0, length: 0 }
        }

        pub fn lend(&mut self, length: usize, _front: bool, canary: u8) -> &'static mut [u8] {
            (self.canary, self.length) = (canary, length);
            self.memory.clear();
            self.memory.resize(length + 2 * CANARIES, canary);
            // SAFETY: as above; the vector is not touched until the next call.
            unsafe {
                let start = self.memory.as_mut_ptr().add(CANARIES);
                std::slice::from_raw_parts_mut(start, length)
            }
        }

        pub fn whole(&self) -> bool {
            let after = CANARIES + self.length;
            self.memory[..CANARIES].iter().chain(&self.memory[after..]).all(|&b| b == self.canary)
        }
    }
}
