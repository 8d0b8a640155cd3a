#[path = "several_files/tank.rs"]
mod tank;

fn main() {
    let mut tank = tank::Tank::new(40);
    tank.fill(12, "litres");
    println!("{}", tank.free());
}
