enum Gear {
    Park,
    Drive,
    Reverse,
}

fn shift(gear: Gear) -> u8 {
    match gear {
        Gear::Park => 0,
        Gear::Drive => 1,
        Gear::Reverse => 2,
    }
}

fn brake() {}

fn main() {
    println!("{}", shift(Gear::Park));
}
