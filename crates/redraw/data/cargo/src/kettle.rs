pub struct Kettle {
    litres: u32,
    degrees: u32,
}

impl Kettle {
    pub fn new(litres: u32) -> Kettle {
        Kettle { litres, degrees: 20 }
    }

    pub fn heat(&mut self, degrees: u32) {
        self.degrees = degrees;
    }

    pub fn degrees(&self) -> u32 {
        self.degrees
    }
}
