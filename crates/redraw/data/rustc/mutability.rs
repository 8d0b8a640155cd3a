fn main() {
    let names = Vec::new();
    names.push("Ada");
    let count = names.len();
    count += 1;
    println!("{count}");
}
