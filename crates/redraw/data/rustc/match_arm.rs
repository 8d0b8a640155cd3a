enum Coin {
    Penny,
    Nickel,
    Dime,
}

fn value(coin: Coin) -> u32 {
    match coin {
        Coin::Penny => 1,
        Coin::Dime => 10,
    }
}

fn main() {
    println!("{}", value(Coin::Nickel) + value(Coin::Penny) + value(Coin::Dime));
}
