fn main() {
    let mut queue = vec![3, 5, 8];
    let head = &queue[0];
    queue.push(13);
    println!("{head}");
}
