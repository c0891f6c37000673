//! Memory from the start of a page on: where in a page it begins decides up to half of the time of
//! a short copy.

use crate::plain::Bank;
use std::ops::{Deref, DerefMut};
use std::slice;

/// One page, which is as long as a bank.
#[derive(Clone, PartialEq)]
#[repr(align(4096))]
pub struct Page(pub Bank);

impl Deref for Page {
    type Target = Bank;

    fn deref(&self) -> &Bank {
        &self.0
    }
}

impl DerefMut for Page {
    fn deref_mut(&mut self) -> &mut Bank {
        &mut self.0
    }
}

/// Pages, as the bytes that they are.
#[derive(Clone, PartialEq)]
pub struct Pages(Vec<Page>);

impl Pages {
    pub fn new(bytes: usize) -> Pages {
        assert_eq!(bytes % size_of::<Page>(), 0, "whole pages");
        Pages(vec![Page([0; 4096]); bytes / size_of::<Page>()])
    }
}

impl Deref for Pages {
    type Target = [u8];

    fn deref(&self) -> &[u8] {
        let bytes = size_of_val(&self.0[..]);
        // SAFETY: a page is its bytes and nothing else, and the next one follows it.
        unsafe { slice::from_raw_parts(self.0.as_ptr().cast(), bytes) }
    }
}

impl DerefMut for Pages {
    fn deref_mut(&mut self) -> &mut [u8] {
        let bytes = size_of_val(&self.0[..]);
        // SAFETY: as in `deref`, and the pages are borrowed mutably.
        unsafe { slice::from_raw_parts_mut(self.0.as_mut_ptr().cast(), bytes) }
    }
}
