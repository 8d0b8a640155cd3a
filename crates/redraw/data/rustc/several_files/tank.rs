pub struct Tank {
    size: u32,
    level: u32,
}

impl Tank {
    pub fn new(size: u32) -> Tank {
        Tank { size, level: 0 }
    }

    pub fn fill(&mut self, amount: u32) {
        self.level += amount;
    }

    pub fn free(&self) -> u32 {
        self.size - self.level
    }
}
