trait Shape {
    fn area(&self) -> f64;
}

struct Square(f64);

struct Label(String);

impl Shape for Square {
    fn area(&self) -> f64 {
        self.0 * self.0
    }
}

fn total<T: Shape>(shapes: &[T]) -> f64 {
    shapes.iter().map(|shape| shape.area()).sum()
}

fn main() {
    println!("{}", total(&[Square(2.0)]));
    println!("{}", total(&[Label(String::from("b"))]));
}
