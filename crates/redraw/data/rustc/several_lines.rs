fn price(weight: u32) -> u32 {
    let rate = if weight > 20 {
        let heavy = weight / 20;
        heavy * 3
    } else {
        "flat"
    };
    rate + 1
}

fn main() {
    println!("{}", price(30));
}
