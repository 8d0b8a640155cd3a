fn count(entry: Entry<'_, String, u32>) {
    *entry.or_insert(0) += 1;
}

fn main() {
    count(std::collections::BTreeMap::new().entry(String::from("a")));
}
