// A line that is to be removed with its end.
#![warn(unused_extern_crates)]
extern crate alloc;

fn main() {}
