// Reads the name of a case from standard input, explores a table of 2^20 - 1 looks ten times by plain recursion, and prints
// how often there was a stop.
use std::io::Read;

const LOOKS: usize = 1_048_575;

fn first(table: &[Option<bool>], index: usize, levels: u32, path: &mut Vec<u32>) -> Option<(Vec<u32>, bool)> {
    match table.get(index) {
        None => None,
        Some(Some(kind)) => Some((path.clone(), *kind)),
        Some(None) => {
            if levels == 0 {
                return None;
            }
            for number in 0..2 {
                path.push(number);
                let found = first(table, 2 * index + 1 + number as usize, levels - 1, path);
                path.pop();
                if found.is_some() {
                    return found;
                }
            }
            None
        }
    }
}

fn main() {
    let mut text = String::new();
    std::io::stdin().read_to_string(&mut text).unwrap();
    let mut table = vec![None; LOOKS];
    if text.starts_with('l') {
        table[LOOKS - 1] = Some(true);
    }
    let mut stops = 0;
    for _ in 0..10 {
        if first(&table, 0, 19, &mut Vec::new()).is_some() {
            stops += 1;
        }
    }
    println!("{stops} stops");
}
