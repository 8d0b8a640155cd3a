trait Store {
    fn put(&mut self, key: &str, value: u32);
    fn get(&self, key: &str) -> Option<u32>;
}

struct Empty;

impl Store for Empty {
    fn put(&mut self, _key: &str, _value: u32) {}
}

fn main() {
    Empty.put("a", 1);
}
