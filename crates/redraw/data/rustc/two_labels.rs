fn main() {
    let words = vec!["a", "b"];
    let joined: String = format!("{}", words);
    assert_eq!(joined, 3);
    println!("{} {}", joined);
}
