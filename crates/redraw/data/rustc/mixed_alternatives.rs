// Three alternatives of several edits, of which the second begins left of what the first ends with.
use std::collections::HashMap;

fn main() {
    let mut counts: HashMap<&str, u32> = HashMap::new();
    counts["kettle"] = 1;
}
