// Reads the name of a case from standard input, does its work many times by the algorithm of dps_semantics, and prints how
// many configurations were found.
use std::collections::HashMap;
use std::io::Read;

#[derive(Clone, PartialEq, Eq)]
enum Term {
    Name(u32),
    Var(u64),
    App(u32, Vec<Term>),
}

#[derive(Clone, PartialEq, Eq)]
enum Process {
    Nil,
    Parallel(Box<Process>, Box<Process>),
    Choice(Box<Process>, Box<Process>),
    If(Term, Term, Box<Process>, Box<Process>),
    Let(u64, Term, Box<Process>, Box<Process>),
    In(u32, u64, Box<Process>),
    Out(u32, Term, Box<Process>),
}

use Process::*;

enum Label {
    In(u32, Term),
    Out(u32, u32),
}

struct Config {
    parts: Vec<Process>,
    frame: Vec<Term>,
}

const PUBLIC: u32 = 0;
const PRIVATE: u32 = 1;
const X: u64 = 1 << 63;

fn mixed(digest: u64, next: u64) -> u64 {
    let found = digest.wrapping_mul(0x9e37_79b9_7f4a_7c15).wrapping_add(next);
    found ^ (found >> 32)
}

fn with_term(digest: u64, term: &Term) -> u64 {
    match term {
        Term::Name(number) => mixed(mixed(digest, 1), u64::from(*number)),
        Term::Var(number) => mixed(mixed(digest, 2), *number),
        Term::App(symbol, arguments) => {
            arguments.iter().fold(mixed(mixed(digest, 3), u64::from(*symbol)), with_term)
        }
    }
}

fn with_process(digest: u64, process: &Process) -> u64 {
    match process {
        Nil => mixed(digest, 9),
        Parallel(left, right) => with_process(with_process(mixed(digest, 10), left), right),
        Choice(left, right) => with_process(with_process(mixed(digest, 11), left), right),
        If(left, right, then, other) => {
            let terms = with_term(with_term(mixed(digest, 12), left), right);
            with_process(with_process(terms, then), other)
        }
        Let(variable, term, then, other) => {
            let head = with_term(mixed(mixed(digest, 13), *variable), term);
            with_process(with_process(head, then), other)
        }
        In(channel, variable, then) => {
            with_process(mixed(mixed(mixed(digest, 14), u64::from(*channel)), *variable), then)
        }
        Out(channel, term, then) => {
            with_process(with_term(mixed(mixed(digest, 15), u64::from(*channel)), term), then)
        }
    }
}

fn with_numbers(digest: u64, numbers: &[usize]) -> u64 {
    numbers.iter().fold(digest, |digest, number| mixed(digest, *number as u64))
}

// Symbols 1 and above are destructors without a rule.
fn evaluate(term: &Term) -> Option<Term> {
    match term {
        Term::App(0, arguments) => {
            Some(Term::App(0, arguments.iter().map(evaluate).collect::<Option<Vec<Term>>>()?))
        }
        Term::App(_, _) => None,
        leaf => Some(leaf.clone()),
    }
}

fn put_term(variable: u64, message: &Term, term: &Term) -> Term {
    match term {
        Term::Var(number) if *number == variable => message.clone(),
        Term::App(symbol, arguments) => {
            Term::App(*symbol, arguments.iter().map(|argument| put_term(variable, message, argument)).collect())
        }
        leaf => leaf.clone(),
    }
}

fn put(variable: u64, message: &Term, process: &Process) -> Process {
    let below = |process: &Process| Box::new(put(variable, message, process));
    let here = |term: &Term| put_term(variable, message, term);
    match process {
        Nil => Nil,
        Parallel(left, right) => Parallel(below(left), below(right)),
        Choice(left, right) => Choice(below(left), below(right)),
        If(left, right, then, other) => If(here(left), here(right), below(then), below(other)),
        Let(bound, term, then, other) => {
            let then = if *bound == variable { then.clone() } else { below(then) };
            Let(*bound, here(term), then, below(other))
        }
        In(channel, bound, then) => {
            In(*channel, *bound, if *bound == variable { then.clone() } else { below(then) })
        }
        Out(channel, term, then) => Out(*channel, here(term), below(then)),
    }
}

#[derive(Default)]
struct Parts {
    list: Vec<Process>,
    places: HashMap<u64, Vec<usize>>,
}

impl Parts {
    fn number(&mut self, part: &Process) -> usize {
        let places = self.places.entry(with_process(0, part)).or_default();
        if let Some(number) = places.iter().find(|number| self.list[**number] == *part) {
            return *number;
        }
        places.push(self.list.len());
        self.list.push(part.clone());
        self.list.len() - 1
    }
}

#[derive(Default)]
struct Bags {
    list: Vec<Vec<usize>>,
    places: HashMap<u64, Vec<usize>>,
}

impl Bags {
    fn of(bag: Vec<usize>) -> Bags {
        let mut bags = Bags::default();
        bags.add(bag);
        bags
    }

    fn add(&mut self, bag: Vec<usize>) {
        let places = self.places.entry(with_numbers(0, &bag)).or_default();
        if places.iter().all(|place| self.list[*place] != bag) {
            places.push(self.list.len());
            self.list.push(bag);
        }
    }

    fn join(&mut self, other: Bags) {
        for bag in other.list.into_iter().rev() {
            self.add(bag);
        }
    }
}

fn joined(ones: &Bags, others: &Bags) -> Bags {
    let mut found = Bags::default();
    for one in &ones.list {
        for other in &others.list {
            let mut bag = [one.as_slice(), other.as_slice()].concat();
            bag.sort_unstable();
            found.add(bag);
        }
    }
    found
}

fn without(bag: &[usize], place: usize) -> Vec<usize> {
    [&bag[..place], &bag[place + 1..]].concat()
}

fn comes_to(parts: &mut Parts, process: &Process) -> Bags {
    match process {
        Nil => Bags::of(Vec::new()),
        Parallel(left, right) => {
            let left = comes_to(parts, left);
            let right = comes_to(parts, right);
            joined(&left, &right)
        }
        Choice(left, right) => {
            let mut bags = comes_to(parts, left);
            bags.join(comes_to(parts, right));
            bags
        }
        If(left, right, then, other) => {
            let equal = evaluate(left).is_some_and(|left| evaluate(right) == Some(left));
            comes_to(parts, if equal { then } else { other })
        }
        Let(variable, term, then, other) => match evaluate(term) {
            Some(message) => comes_to(parts, &put(*variable, &message, then)),
            None => comes_to(parts, other),
        },
        In(_, _, _) | Out(_, _, _) => Bags::of(vec![parts.number(process)]),
    }
}

fn is_repeated(bag: &[usize], index: usize) -> bool {
    index > 0 && bag[index - 1] == bag[index]
}

fn meetings_at(parts: &mut Parts, bag: &[usize], index: usize) -> Bags {
    let mut found = Bags::default();
    let Out(channel, term, then) = &parts.list[bag[index]] else { return found };
    if *channel != PRIVATE {
        return found;
    }
    let Some(message) = evaluate(term) else { return found };
    let (channel, then) = (*channel, then.clone());
    let others = without(bag, index);
    let ones = comes_to(parts, &then);
    for place in 0..others.len() {
        if is_repeated(&others, place) {
            continue;
        }
        match &parts.list[others[place]] {
            In(wanted, variable, then) if *wanted == channel => {
                let then = put(*variable, &message, then);
                let theirs = comes_to(parts, &then);
                let both = joined(&theirs, &Bags::of(without(&others, place)));
                found.join(joined(&ones, &both));
            }
            _ => {}
        }
    }
    found
}

fn settle(config: Config) -> Vec<Config> {
    let mut parts = Parts::default();
    let mut bags = Bags::of(Vec::new());
    for process in &config.parts {
        let more = comes_to(&mut parts, process);
        bags = joined(&bags, &more);
    }
    let mut index = 0;
    while index < bags.list.len() {
        let bag = bags.list[index].clone();
        for place in 0..bag.len() {
            if !is_repeated(&bag, place) {
                let more = meetings_at(&mut parts, &bag, place);
                bags.join(more);
            }
        }
        index += 1;
    }
    let copies = |bag: &Vec<usize>| bag.iter().map(|number| parts.list[*number].clone()).collect();
    bags.list.iter().map(|bag| Config { parts: copies(bag), frame: config.frame.clone() }).collect()
}

fn recipe(frame: &[Term], term: &Term) -> Option<Term> {
    match term {
        Term::Var(number) => frame.get(*number as usize).cloned(),
        other => evaluate(other),
    }
}

fn act(config: &Config, label: &Label) -> Vec<Config> {
    let sent = match label {
        Label::In(channel, term) if *channel == PUBLIC => match recipe(&config.frame, term) {
            Some(message) => Some((*channel, message)),
            None => return Vec::new(),
        },
        Label::Out(channel, number) if *channel == PUBLIC && *number as usize == config.frame.len() + 1 => None,
        _ => return Vec::new(),
    };
    let mut seen = Parts::default();
    let mut found = Vec::new();
    for (index, part) in config.parts.iter().enumerate() {
        let known = seen.list.len();
        if seen.number(part) != known {
            continue;
        }
        let (then, added) = match (part, &sent) {
            (In(channel, variable, then), Some((wanted, message))) if channel == wanted => {
                (put(*variable, message, then), None)
            }
            (Out(channel, term, then), None) if *channel == PUBLIC => match evaluate(term) {
                Some(message) => ((**then).clone(), Some(message)),
                None => continue,
            },
            _ => continue,
        };
        let mut parts = Vec::with_capacity(config.parts.len());
        parts.push(then);
        parts.extend_from_slice(&config.parts[..index]);
        parts.extend_from_slice(&config.parts[index + 1..]);
        let mut frame = config.frame.clone();
        frame.extend(added);
        found.push(Config { parts, frame });
    }
    found
}

fn each_once(configs: Vec<Config>) -> Vec<Config> {
    let mut table = Parts::default();
    let mut places: HashMap<u64, Vec<usize>> = HashMap::new();
    let mut keys: Vec<Vec<usize>> = Vec::new();
    let mut once: Vec<Config> = Vec::new();
    for config in configs.into_iter().rev() {
        let mut numbers: Vec<usize> = config.parts.iter().map(|part| table.number(part)).collect();
        numbers.sort_unstable();
        let digest = with_numbers(config.frame.iter().fold(0, with_term), &numbers);
        let places = places.entry(digest).or_default();
        if places.iter().all(|place| keys[*place] != numbers || once[*place].frame != config.frame) {
            places.push(once.len());
            keys.push(numbers);
            once.push(config);
        }
    }
    once
}

fn runs(side: &Process, word: &[Label]) -> Vec<Config> {
    let mut ends = settle(Config { parts: vec![side.clone()], frame: Vec::new() });
    for label in word {
        let mut found = Vec::new();
        for config in &ends {
            for next in act(config, label).into_iter().rev() {
                found.append(&mut settle(next));
            }
        }
        ends = each_once(found);
        if ends.is_empty() {
            break;
        }
    }
    ends
}

fn hashed() -> Term {
    Term::App(0, vec![Term::Var(X)])
}

fn role() -> Process {
    let then = Box::new(Out(PUBLIC, hashed(), Box::new(Nil)));
    let other = Box::new(Out(PUBLIC, Term::Var(X), Box::new(Nil)));
    let tested = Box::new(If(Term::Var(X), Term::Name(0), then, other));
    In(PUBLIC, X, Box::new(Out(PUBLIC, hashed(), Box::new(In(PUBLIC, X, tested)))))
}

fn word(doubled: bool) -> Vec<Label> {
    let mut word = Vec::new();
    let mut messages = 0;
    for number in 0..60 {
        if if doubled { number / 2 % 2 == 0 } else { number % 2 == 0 } {
            word.push(Label::In(PUBLIC, Term::Name(0)));
        } else {
            messages += 1;
            word.push(Label::Out(PUBLIC, messages));
        }
    }
    word
}

fn senders() -> Vec<Process> {
    let sender = Out(PRIVATE, Term::Name(0), Box::new(Nil));
    let receiver = In(PRIVATE, X, Box::new(Nil));
    (0..16).map(|number| if number % 2 == 0 { sender.clone() } else { receiver.clone() }).collect()
}

fn main() {
    let mut case = String::new();
    std::io::stdin().read_to_string(&mut case).unwrap();
    let mut found = 0;
    if case.starts_with('s') {
        for _ in 0..200 {
            found += settle(Config { parts: senders(), frame: Vec::new() }).len();
        }
    } else {
        let all = (0..16).fold(Nil, |all, _| Parallel(Box::new(role()), Box::new(all)));
        let word = word(case.starts_with('d'));
        for _ in 0..10 {
            found += runs(&all, &word).len();
        }
    }
    println!("{found} configurations");
}
