mod account {
    pub struct Account {
        balance: i64,
    }

    impl Account {
        pub fn open() -> Account {
            Account { balance: 0 }
        }
    }
}

fn main() {
    let account = account::Account::open();
    println!("{}", account.balance);
}
