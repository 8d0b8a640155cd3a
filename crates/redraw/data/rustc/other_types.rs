//! A sum of two types, for which rustc names the sums that there are: they lie in macros of the standard library.

fn main() {
    let price: u8 = 1;
    let rebate: u16 = 2;
    println!("{}", price + rebate);
}
