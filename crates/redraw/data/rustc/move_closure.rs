fn adder(step: u32) -> impl Fn(u32) -> u32 {
    |number| number + step
}

fn main() {
    println!("{}", adder(2)(3));
}
