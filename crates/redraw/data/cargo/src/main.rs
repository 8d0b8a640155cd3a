mod kettle;

fn main() {
    let mut kettle = kettle::Kettle::new(3);
    kettle.heat(80);
    println!("{}", kettle.degrees());
}
