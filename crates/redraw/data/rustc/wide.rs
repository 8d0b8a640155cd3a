fn main() {
    let city = "東京都"; let count: u32 = city; // 人口
    println!("{count}");
}
