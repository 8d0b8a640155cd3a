fn main() {
    let greeting = "👩‍🔬 cafe\u{301} é"; let length: u8 = greeting.len();
    println!("{length}");
}
