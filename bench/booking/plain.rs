// The same walks by a book of plain Rust with the same links: after each path comes the next one in the order of paths.
use std::io::Read;

#[derive(Clone, Copy, PartialEq, Eq)]
enum Mark {
    Open,
    Held(u32),
    Posted,
    Dropped,
    DroppedHeld(u32),
}

#[derive(Clone, Copy)]
enum Post {
    Kids(u32),
    Stop,
}

#[allow(dead_code)]
enum Entry {
    Claimed { worker: u32, ticket: u64 },
    Posted { worker: u32, ticket: u64, result: Post },
}

struct Book {
    rows: Vec<(Vec<u32>, Mark)>,
    next: Vec<Option<u64>>,
    best: Option<u64>,
    open: u64,
    held: Option<u64>,
    claims: u64,
    journal: Vec<Entry>,
}

impl Book {
    fn new() -> Book {
        Book { rows: vec![(Vec::new(), Mark::Open)], next: vec![None], best: None, open: 1, held: None, claims: 0, journal: Vec::new() }
    }

    fn claim(&mut self, ticket: u64, path: &[u32]) {
        if self.held.is_some() {
            return;
        }
        let Some(row) = self.rows.get_mut(ticket as usize) else { return };
        if row.1 != Mark::Open || row.0 != path {
            return;
        }
        row.1 = Mark::Held(0);
        self.held = Some(ticket);
        self.claims += 1;
        self.journal.push(Entry::Claimed { worker: 0, ticket });
    }

    fn owes(&self, path: &[u32]) -> bool {
        self.held.is_some_and(|ticket| self.rows[ticket as usize].0 == path)
    }

    fn post(&mut self, result: Post) {
        let Some(ticket) = self.held.take() else { return };
        let index = ticket as usize;
        if self.rows[index].1 == Mark::DroppedHeld(0) {
            self.rows[index].1 = Mark::Dropped;
        } else {
            self.rows[index].1 = Mark::Posted;
            match result {
                Post::Kids(count) => self.add_kids(index, count),
                Post::Stop => {
                    self.open = self.open - 1 - self.drop_behind(index);
                    self.best = Some(ticket);
                }
            }
        }
        self.journal.push(Entry::Posted { worker: 0, ticket, result });
    }

    fn add_kids(&mut self, index: usize, count: u32) {
        let mut last = index;
        for number in 0..count {
            let mut path = self.rows[index].0.clone();
            path.push(number);
            let kid = self.rows.len();
            self.rows.push((path, Mark::Open));
            self.next.push(self.next[last]);
            self.next[last] = Some(kid as u64);
            last = kid;
        }
        self.open = self.open - 1 + u64::from(count);
    }

    fn drop_behind(&mut self, index: usize) -> u64 {
        let mut dropped = 0;
        let mut place = self.next[index].take();
        while let Some(ticket) = place {
            let mark = &mut self.rows[ticket as usize].1;
            match *mark {
                Mark::Open => {
                    *mark = Mark::Dropped;
                    dropped += 1;
                }
                Mark::Held(worker) => {
                    *mark = Mark::DroppedHeld(worker);
                    dropped += 1;
                }
                _ => {}
            }
            place = self.next[ticket as usize].take();
        }
        dropped
    }

    fn finished(&self) -> bool {
        self.open == 0
    }
}

fn expand(book: &mut Book, ticket: u64, found: Post) {
    let Some(row) = book.rows.get(ticket as usize) else { return };
    let path = row.0.clone();
    book.claim(ticket, &path);
    if book.owes(&path) {
        book.post(found);
    }
}

fn explored(inner: u32, case: u8) -> u64 {
    let mut book = Book::new();
    for ticket in 0..inner {
        expand(&mut book, u64::from(ticket), Post::Kids(2));
    }
    let found = if case == b'k' { Post::Kids(0) } else { Post::Stop };
    if case != b'f' {
        for number in 0..inner {
            expand(&mut book, 2 * u64::from(inner) - u64::from(number), found);
            if book.finished() {
                break;
            }
        }
    }
    expand(&mut book, u64::from(inner), found);
    if book.finished() { book.claims } else { 0 }
}

fn main() {
    let mut text = String::new();
    std::io::stdin().read_to_string(&mut text).unwrap();
    let text = text.as_bytes();
    let (inner, trees) = match text.last() {
        Some(b'2') => (2_047, 256),
        Some(b'6') => (32_767, 16),
        _ => (524_287, 1),
    };
    let mut claims = 0;
    for _ in 0..trees {
        claims += explored(inner, text[0]);
    }
    println!("{claims} claims");
}
