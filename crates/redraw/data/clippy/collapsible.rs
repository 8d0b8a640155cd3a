pub fn is_three(x: Option<u32>) -> bool {
    if x.is_some() {
        if x == Some(3) {
            println!("three");
            return true;
        }
    }
    return false;
}
