// One fix of two insertions at one place.
fn call<F>(_f: F)
where
    F: Fn(()),
{
}

fn main() {
    call(|_|)
}
