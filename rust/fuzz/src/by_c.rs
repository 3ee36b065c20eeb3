//! The archive by C: by_c.c makes each call as include/flamivorse.h declares it.

use crate::calls::Outcome;
use crate::lent::{Arguments, Lent, Outline};
use std::ffi::{c_char, CString};
use std::ptr;

/// A slice as C has it. An empty one has the null pointer, as the header allows.
#[repr(C)]
struct Slice<T> {
    start: *mut T,
    length: usize,
}

impl<T: Clone> From<&mut Lent<T>> for Slice<T> {
    fn from(lent: &mut Lent<T>) -> Slice<T> {
        let slice = lent.slice_mut();
        let start = if slice.is_empty() {
            ptr::null_mut()
        } else {
            slice.as_mut_ptr()
        };
        let length = slice.len();
        Slice { start, length }
    }
}

/// `arguments` of by_c.c.
#[repr(C)]
struct Given {
    state: Outline,
    values: [u32; 3],
    inputs: [Slice<u32>; 2],
    output: Slice<u32>,
    words: Slice<u32>,
    bytes: Slice<u8>,
    tag: Slice<u8>,
    chain: *mut u32,
    outer: *mut u32,
    tail: *mut u8,
}

extern "C" {
    fn make_by_c(name: *const c_char, arguments: *mut Given) -> Outcome;
    fn ask_by_c(name: *const c_char, state: Outline, bytes: usize) -> Outcome;
}

fn c_name(name: &str) -> CString {
    CString::new(name).expect("a name in the table")
}

/// Makes the call of this name.
pub fn make(name: &str, a: &mut Arguments) -> Outcome {
    let mut given = Given {
        state: a.state,
        values: a.values,
        inputs: a.inputs.each_mut().map(Slice::from),
        output: (&mut a.output).into(),
        words: (&mut a.words).into(),
        bytes: (&mut a.bytes).into(),
        tag: (&mut a.tag).into(),
        chain: a.chain.slice_mut().as_mut_ptr(),
        outer: a.outer.slice_mut().as_mut_ptr(),
        tail: a.tail.slice_mut().as_mut_ptr(),
    };
    // SAFETY: each slice is a memory of its own, borrowed for the call. The chains and the tail are as long as the
    // header has them in a state.
    let outcome = unsafe { make_by_c(c_name(name).as_ptr(), &mut given) };
    a.state = given.state;
    outcome
}

/// Asks how many words the call of this name draws.
pub fn ask(name: &str, state: Outline, bytes: usize) -> Outcome {
    // SAFETY: it takes any numbers, and no memory but the name.
    unsafe { ask_by_c(c_name(name).as_ptr(), state, bytes) }
}
