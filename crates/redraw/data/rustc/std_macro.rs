struct Point {
    x: i32,
    y: i32,
}

fn main() {
    let start = Point { x: 1, y: 2 };
    let end = Point { x: start.y, y: start.x };
    assert_eq!(start, end);
}
