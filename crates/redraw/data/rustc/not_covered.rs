fn main() {
    let given = Some(1);
    match given {
        None => println!("none"),
    }
}
