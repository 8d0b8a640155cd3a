#![allow(dead_code)]
struct Wrapped<T>(T);

fn Unwrapped<T>(it: Wrapped<T>) -> T {
    it.0
}

fn main() {
    let seed = Seed::new();
}

struct seed;

mod words {
    pub const W: u32 = 1;
}

use words::w;
