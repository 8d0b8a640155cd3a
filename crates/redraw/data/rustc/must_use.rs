fn halve(number: u32) -> Result<u32, String> {
    if number % 2 == 0 {
        Ok(number / 2)
    } else {
        Err(format!("{number} is odd"))
    }
}

fn main() {
    halve(7);
}
