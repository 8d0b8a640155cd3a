struct Parcel {
    weight: u32,
}

fn ship(parcel: Parcel) -> u32 {
    parcel.weight
}

fn main() {
    let parcel = Parcel { weight: 7 };
    let first = ship(parcel);
    let second = ship(parcel);
    println!("{}", first + second);
}
