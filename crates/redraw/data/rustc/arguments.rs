fn mix(red: u8, green: u8, blue: u8) -> u32 {
    u32::from(red) << 16 | u32::from(green) << 8 | u32::from(blue)
}

fn main() {
    println!("{}", mix(1, 2));
}
