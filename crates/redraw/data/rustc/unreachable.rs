fn first_even(numbers: &[u32]) -> Option<u32> {
    for &number in numbers {
        if number % 2 == 0 {
            return Some(number);
        }
    }
    return None;
    println!("none was even");
}

fn main() {
    println!("{:?}", first_even(&[1, 4]));
}
