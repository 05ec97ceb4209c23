//! Reads the name of a case from standard input, unifies its pairs 100 times, and prints how often there was a unifier.
//! The algorithm is that of dps_unify: variables are bound to parts of the pairs, and the unifier's terms are made at the
//! end.
use std::collections::{HashMap, HashSet};
use std::io::Read;

const LEAVES: u32 = 50_000;

enum Term {
    App(u32, Vec<Term>),
    Public(u32),
    Var(u64),
}

#[derive(Default)]
struct Bindings<'a> {
    places: HashMap<u64, usize>,
    terms: Vec<(u64, &'a Term)>,
}

impl<'a> Bindings<'a> {
    fn get(&self, variable: u64) -> Option<&'a Term> {
        self.places.get(&variable).map(|place| self.terms[*place].1)
    }

    fn bind(&mut self, variable: u64, term: &'a Term) {
        self.places.insert(variable, self.terms.len());
        self.terms.push((variable, term));
    }

    fn resolve(&self, mut term: &'a Term) -> &'a Term {
        while let Term::Var(variable) = term {
            match self.get(*variable) {
                Some(next) => term = next,
                None => return term,
            }
        }
        term
    }

    fn reaches(&self, variable: u64, term: &'a Term, passed: &mut HashSet<u64>) -> bool {
        let Term::Var(number) = term else {
            return self.reaches_arguments(variable, term, passed);
        };
        if passed.contains(number) {
            return false;
        }
        if self.reaches_arguments(variable, self.resolve(term), passed) {
            return true;
        }
        passed.insert(*number);
        false
    }

    fn reaches_arguments(&self, variable: u64, term: &'a Term, passed: &mut HashSet<u64>) -> bool {
        match term {
            Term::Var(number) => *number == variable,
            Term::Public(_) => false,
            Term::App(_, arguments) => arguments.iter().any(|term| self.reaches(variable, term, passed)),
        }
    }

    fn solve(&self, term: &'a Term) -> Term {
        match self.resolve(term) {
            Term::App(sym, arguments) => Term::App(*sym, arguments.iter().map(|term| self.solve(term)).collect()),
            Term::Public(name) => Term::Public(*name),
            Term::Var(variable) => Term::Var(*variable),
        }
    }
}

/// Two parts of the pending pairs whose roots differ.
fn next_difference<'a>(
    bindings: &Bindings<'a>,
    pending: &mut Vec<(&'a Term, &'a Term)>,
) -> Option<(&'a Term, &'a Term)> {
    while let Some((left, right)) = pending.pop() {
        let left = bindings.resolve(left);
        let right = bindings.resolve(right);
        match (left, right) {
            (Term::App(f, ts), Term::App(g, us)) if f == g && ts.len() == us.len() => {
                pending.extend(ts.iter().zip(us))
            }
            (Term::Public(m), Term::Public(n)) if m == n => {}
            (Term::Var(m), Term::Var(n)) if m == n => {}
            _ => return Some((left, right)),
        }
    }
    None
}

fn mgu(pairs: &[(Term, Term)]) -> Option<HashMap<u64, Term>> {
    let mut pending: Vec<_> = pairs.iter().map(|(left, right)| (left, right)).collect();
    let mut bindings = Bindings::default();
    while let Some(parts) = next_difference(&bindings, &mut pending) {
        let (variable, term) = match parts {
            (Term::Var(x), Term::Var(y)) if x < y => (*y, parts.0),
            (Term::Var(x), _) => (*x, parts.1),
            (_, Term::Var(y)) => (*y, parts.0),
            _ => return None,
        };
        if bindings.reaches(variable, term, &mut HashSet::new()) {
            return None;
        }
        bindings.bind(variable, term);
    }
    Some(bindings.terms.iter().map(|(variable, term)| (*variable, bindings.solve(term))).collect())
}

fn tree(first: u32, last: Term) -> Term {
    let mut terms = vec![Term::Public(first)];
    terms.extend((2..LEAVES).map(Term::Public));
    terms.push(last);
    while terms.len() > 1 {
        let mut made = Vec::new();
        let mut rest = terms.into_iter();
        while let Some(left) = rest.next() {
            made.push(match rest.next() {
                Some(right) => Term::App(0, vec![left, right]),
                None => left,
            });
        }
        terms = made;
    }
    terms.pop().unwrap()
}

fn doubled(count: u64, pairs: &mut Vec<(Term, Term)>) {
    for number in 0..count {
        pairs.push((Term::Var(number + 1), Term::App(0, vec![Term::Var(number), Term::Var(number)])));
    }
}

fn main() {
    let mut text = Vec::new();
    std::io::stdin().read_to_end(&mut text).unwrap();
    let mut pairs = Vec::new();
    match text.first() {
        Some(b'l') => pairs.push((tree(1, Term::Public(LEAVES)), tree(1, Term::Public(0)))),
        Some(b'f') => pairs.push((tree(0, Term::Public(0)), tree(1, Term::Public(0)))),
        Some(b'v') => pairs.push((tree(1, Term::Var(7)), tree(1, Term::Public(0)))),
        Some(b'd') => doubled(10, &mut pairs),
        _ => {
            pairs.push((Term::Public(1), Term::Public(2)));
            doubled(300, &mut pairs);
        }
    }
    let mut found = 0;
    for _ in 0..100 {
        if std::hint::black_box(mgu(std::hint::black_box(&pairs))).is_some() {
            found += 1;
        }
    }
    println!("{found} unifiers");
}
