fn main() {
    let basket = ["pear", "plum"];
    for (index, fruit) in basket.iter().enumerate() {
        println!("{fruit}");
    }
}
