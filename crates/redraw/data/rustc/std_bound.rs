struct Ticket(u32);

fn main() {
    let mut tickets = vec![Ticket(2), Ticket(1)];
    tickets.sort();
    println!("{}", tickets[0].0);
}
