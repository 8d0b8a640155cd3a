pub fn words(list: &Vec<String>) -> String {
    let mut all = String::new();
    for i in 0..list.len() {
        all.push_str(&list[i].to_string());
    }
    if all.len() == 0 {
        all = "none".to_string();
    }
    let first = list.iter().next();
    let copy = all.clone();
    match first {
        Some(ref word) => println!("{}", word),
        _ => (),
    };
    copy.chars().last().unwrap_or(' ').to_string()
}
