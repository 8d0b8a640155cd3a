fn only() {}

pub fn all() {
    only();
}
