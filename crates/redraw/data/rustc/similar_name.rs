//! Names that are nearly those of the standard library, whose source isn't at hand.

fn shout(text: &str) -> Strng {
    text.to_uppercase()
}

fn main() {
    pritnln!("{}", shout("a"));
}
