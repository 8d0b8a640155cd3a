fn area(width: u32, height: u32) -> u64 {
    let product = width * height;
    product
}

fn main() {
    println!("{}", area(3, 4));
}
