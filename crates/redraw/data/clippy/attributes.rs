pub mod inner {
    pub enum Kind {
        First,
        Second,
    }

    impl Kind {
        pub fn number(&self) -> u32 {
            match self {
                Kind::First => 1,
                Kind::Second => 1,
            }
        }
    }
}

pub fn doubled(x: u32) -> u32 {
    x * 2
}
