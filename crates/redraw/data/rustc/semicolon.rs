fn main() {
    let left = 2
    let right = 3;
    println!("{}", left + right);
}
