//! The stack that a call takes: it is made on a thread whose stack is filled with a mark beforehand; from the first byte
//! that is no longer the mark on, the stack was used.

use crate::measure::Pair;
use std::ffi::{c_int, c_void};

const BYTES: usize = 1 << 20;
const MARK: u8 = 0xa5;

/// Room for the C library's attributes of a thread.
#[repr(C, align(16))]
struct Attributes([u8; 128]);

extern "C" {
    fn pthread_attr_init(attributes: *mut Attributes) -> c_int;
    fn pthread_attr_setstack(attributes: *mut Attributes, stack: *mut c_void, bytes: usize) -> c_int;
    fn pthread_create(
        thread: *mut usize,
        attributes: *const Attributes,
        run: extern "C" fn(*mut c_void) -> *mut c_void,
        with: *mut c_void,
    ) -> c_int;
    fn pthread_join(thread: usize, result: *mut *mut c_void) -> c_int;
}

/// What is done on the thread.
type Done<'a> = &'a mut dyn FnMut();

extern "C" fn run(done: *mut c_void) -> *mut c_void {
    let done = unsafe { &mut *(done as *mut Done) };
    done();
    std::ptr::null_mut()
}

fn used(mut done: Done) -> usize {
    let mut memory = vec![MARK; BYTES + 4096];
    let start = memory.as_mut_ptr().align_offset(4096);
    let stack = &mut memory[start..start + BYTES];
    unsafe {
        let (mut attributes, mut thread) = (Attributes([0; 128]), 0);
        let with = &mut done as *mut Done as *mut c_void;
        assert_eq!(pthread_attr_init(&mut attributes), 0);
        assert_eq!(pthread_attr_setstack(&mut attributes, stack.as_mut_ptr() as *mut c_void, BYTES), 0);
        assert_eq!(pthread_create(&mut thread, &attributes, run, with), 0);
        assert_eq!(pthread_join(thread, std::ptr::null_mut()), 0);
    }
    BYTES - stack.iter().take_while(|&&byte| byte == MARK).count()
}

/// The bytes of stack that is used by what is done, above what a thread uses that does nothing.
pub fn bytes(done: Done) -> usize {
    used(done).saturating_sub(used(&mut || ()))
}

/// The most that the library's way of any of some pairs takes.
pub fn most(pairs: impl Iterator<Item = impl Pair>) -> usize {
    pairs.map(|mut pair| bytes(&mut || pair.run(0))).max().expect("a pair")
}
