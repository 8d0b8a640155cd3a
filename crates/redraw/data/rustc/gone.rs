fn main() {
    let count = 3;
    let name: String = count;
    println!("{name}");
}
