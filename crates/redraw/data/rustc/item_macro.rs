println!("of no function");

fn main() {}
