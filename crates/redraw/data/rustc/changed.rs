fn main() {
    let name = "Ada";
    println!("{}", nam.len());
}
