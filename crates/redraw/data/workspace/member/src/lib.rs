pub struct Counter {
    counts: Vec<u32>,
    limit: u32,
}

impl Counter {
    pub fn new() -> Counter {
        Counter { counts: Vec::new() , limit: 3 }
    }

    pub fn sum(&self) -> u32 {
        let mut total = 0;
        let unused = 1;
        for count in (&self.counts) {
            total = total + count;
        }
        total
    }
}
