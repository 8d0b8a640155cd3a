fn planks(wanted: u32, at_hand: &[u32]) -> Vec<u32> {
    if at_hand.is_empty() {
        vec![
            wanted,
        ]
    } else {
        Some(
            wanted,
        )
    }
}

fn main() {
    let lengths = if planks(4, &[]).len() > 2 {
        planks(
            2,
            &[1],
        )
    } else {
        u32::max(
            3,
            4,
        )
    };
    println!("{lengths:?}");
}
