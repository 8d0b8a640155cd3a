struct Point {
    x: i32,
}

mod inner {
    pub struct Deep {
        pub y: i32,
    }
}

fn main() {
    let p = Point { x: 1 };
    let q = p.clone();
    println!("{:?} {}", p, q.x);
    println!("{:?}", inner::Deep { y: 2 });
}
