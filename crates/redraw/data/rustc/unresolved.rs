fn main() {
    let distance = 12;
    println!("{}", distanse * 2);
}
