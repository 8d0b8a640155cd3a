fn main() {
    let count: u32 = "a‎bc";
    println!("{count}");
}
