struct Reader<'a> {
    text: &'a str,
}

impl<'a> Reader<'a> {
    fn rest<'b>(&'b self, other: &'b str) -> &'a str {
        if self.text.is_empty() { other } else { self.text }
    }
}

fn main() {
    println!("{}", Reader { text: "a" }.rest("b"));
}
