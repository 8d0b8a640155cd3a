fn half(n: u32) {
    n / 2
}

fn twice(n: u32) -> u32 {
    n * 2;
}

fn main() {
    let text: String = "text";
    let n: u64 = half(3) + twice(4);
    if n = 3 {
        return 4;
    }
    let list = [1, 2, 3];
    for i in list.len() {
        println!("{}", list[i])
    }
    println!("{text}");
}
