fn main() {
    let mut shortest = "";
    for number in [12, 3, 456] {
        let word = number.to_string();
        if shortest.is_empty() || word.len() < shortest.len() {
            shortest = &word;
        }
    }
    println!("{shortest}");
}
