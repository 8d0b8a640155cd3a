use std::collections::HashMap;

fn main() {
    let _: HashMa<u8, u8> = HashMap::new();
}
