//! The comparison of the table of sets with the library's: the rows, and the sets
//! that designations name.

use crate::compare::{same, Compared, Comparer};
use crate::ffi::Library;
use crate::sets;

impl<L: Library> Comparer<L> {
    pub fn set_row(&self, set: u8) -> Compared {
        let call = || format!("ctext_set_row of {set}");
        let theirs = self.library.set_row(set);
        same(sets::row(set), theirs, call, |row| format!("{row:?}"))
    }

    pub fn set_of(&self, form: u8, side: u8, last: u8) -> Compared {
        let call = || format!("ctext_set_of form {form}, side {side}, octet {last:02X}");
        let theirs = self.library.set_of(form, side, last);
        same(sets::set_of(form, side, last), theirs, call, u8::to_string)
    }
}
