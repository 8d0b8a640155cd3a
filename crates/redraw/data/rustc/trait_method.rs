fn main() {
    ().borrow();
}
