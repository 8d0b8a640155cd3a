fn main() {
    let mut count = 1;
    println!("{count}");
    let word = String::from("count");
    std::mem::drop(&word);
}
