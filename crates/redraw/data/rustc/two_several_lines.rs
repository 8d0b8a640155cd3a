fn main() {
    let wanted = 4;
    let plank = if wanted > 2 {
        u32::max(
            wanted,
            3,
        )
    } else {
        "none"
    };
    println!("{plank}");
}
