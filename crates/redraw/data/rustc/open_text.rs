fn main() {
    let s = "a text without an end;
}
