use std::collections::HashMap;

trait Shape {
    fn area(&self) -> f64;
}

fn area_of(shape: Shape) -> f64 {
    shape.area()
}

fn main() {
    let map: HashMap<u32, u32> = HashMap::new();
    map.insert(1, 2);
    let c = 'abc';
    let n: i32 = 3.5;
    let s = String::new() + 1;
    println!("{}", area_of(n));
}
