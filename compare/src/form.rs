//! A form, and a log in fragments by the exported calls on it. bench/ uses this file too.

use crate::hubcrackle::{hubcrackle_feed, hubcrackle_finish, hubcrackle_start};

const OK: i32 = 0;
const FORM_BYTES: usize = 2_962;
const ANSWER_BYTES: usize = 8;

/// The bytes of a form, at the start of a cache line, so that every run of the benchmark has them there.
#[repr(align(64))]
pub struct Form([u8; FORM_BYTES]);

impl Form {
    /// Bytes that no call has written yet.
    pub fn new() -> Form {
        Form([0; FORM_BYTES])
    }

    pub fn start(&mut self, setup: u8) -> i32 {
        // SAFETY: the pointer comes with the length of its array.
        unsafe { hubcrackle_start(setup, self.0.as_mut_ptr(), FORM_BYTES) }
    }

    pub fn feed(&mut self, fragment: &[u8], out: &mut [u8], records: &mut u32) -> i32 {
        let form = self.0.as_mut_ptr();
        // SAFETY: each pointer comes with the length of what it points to, and no two of these overlap.
        unsafe { hubcrackle_feed(form, FORM_BYTES, fragment.as_ptr(), fragment.len(), out.as_mut_ptr(), out.len(), records) }
    }

    pub fn finish(&self) -> i32 {
        // SAFETY: the pointer comes with the length of its array.
        unsafe { hubcrackle_finish(self.0.as_ptr(), FORM_BYTES) }
    }

    /// A log in fragments from start to finish, its answers over the front of the room; how many bytes these have. The process ends where a call is
    /// refused.
    pub fn follow<'a>(&mut self, setup: u8, fragments: impl Iterator<Item = &'a [u8]>, out: &mut [u8]) -> usize {
        assert_eq!(self.start(setup), OK, "a form was not started");
        let mut answered = 0;
        for fragment in fragments {
            let mut records = 0;
            assert_eq!(self.feed(fragment, &mut out[answered..], &mut records), OK, "a fragment was refused");
            answered += records as usize * ANSWER_BYTES;
        }
        assert_eq!(self.finish(), OK, "a log of whole records was not finished");
        answered
    }
}
