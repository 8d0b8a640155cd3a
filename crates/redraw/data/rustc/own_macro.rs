macro_rules! twice {
    ($value:expr) => {
        $value + $value
    };
}

fn main() {
    let text = "ab";
    let doubled = twice!(text);
    println!("{doubled}");
}
