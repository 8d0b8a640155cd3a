#[deprecated(since = "2.0.0", note = "`brew` takes the water's temperature")]
fn boil() -> u32 {
    100
}

fn main() {
    println!("{}", boil());
}
