//! Comparison of two frames, where no rule computes, as a Rust programmer would write it.

#[derive(Clone, PartialEq, Eq)]
pub enum Term {
    App(u32, Vec<Term>),
    Public(u32),
    Private(u64),
    Ax(u32),
}

impl Term {
    pub fn size(&self) -> u64 {
        match self {
            Term::App(_, arguments) => 1 + arguments.iter().map(Term::size).sum::<u64>(),
            _ => 1,
        }
    }
}

fn mixed(digest: u64, next: u64) -> u64 {
    let found = digest.wrapping_mul(0x9e37_79b9_7f4a_7c15).wrapping_add(next);
    found ^ (found >> 32)
}

/// A number by which most different terms are told apart.
fn digest(term: &Term) -> u64 {
    match term {
        Term::App(symbol, arguments) => arguments
            .iter()
            .fold(mixed(4, u64::from(*symbol)), |found, argument| mixed(found, digest(argument))),
        Term::Public(name) => mixed(1, u64::from(*name)),
        Term::Private(name) => mixed(2, *name),
        Term::Ax(number) => mixed(3, u64::from(*number)),
    }
}

/// A frame, with the digest of each message.
struct Frame<'a> {
    messages: &'a [Term],
    digests: Vec<u64>,
}

impl Frame<'_> {
    fn place(&self, message: &Term) -> Option<usize> {
        let wanted = digest(message);
        self.digests
            .iter()
            .zip(self.messages)
            .position(|(found, kept)| *found == wanted && kept == message)
    }

    /// A recipe of the message, if it has one.
    fn recipe(&self, message: &Term) -> Option<Term> {
        if let Term::Public(name) = message {
            return Some(Term::Public(*name));
        }
        match self.place(message) {
            Some(i) => Some(Term::Ax(i as u32 + 1)),
            None => self.composed(message),
        }
    }

    fn composed(&self, message: &Term) -> Option<Term> {
        match message {
            Term::App(symbol, arguments) => {
                let recipes: Option<Vec<Term>> =
                    arguments.iter().map(|argument| self.recipe(argument)).collect();
                Some(Term::App(*symbol, recipes?))
            }
            Term::Public(name) => Some(Term::Public(*name)),
            _ => None,
        }
    }
}

/// Whether the recipe's value is the message.
fn gives(frame: &[Term], recipe: &Term, message: &Term) -> bool {
    match (recipe, message) {
        (Term::App(f, recipes), Term::App(g, arguments)) => {
            f == g
                && recipes.len() == arguments.len()
                && recipes.iter().zip(arguments).all(|(r, t)| gives(frame, r, t))
        }
        (Term::Ax(number), _) => frame[*number as usize - 1] == *message,
        _ => recipe == message,
    }
}

/// Two recipes that are equal in the first frame and not in the second.
fn difference(first: &[Term], second: &[Term]) -> Option<(Term, Term)> {
    let frame = Frame {
        messages: first,
        digests: first.iter().map(digest).collect(),
    };
    for (i, message) in first.iter().enumerate() {
        if let Some(place) = frame.place(message) {
            if second[place] != second[i] {
                return Some((Term::Ax(i as u32 + 1), Term::Ax(place as u32 + 1)));
            }
        }
        if let Some(recipe) = frame.composed(message) {
            if !gives(second, &recipe, &second[i]) {
                return Some((Term::Ax(i as u32 + 1), recipe));
            }
        }
    }
    None
}

pub fn compare(first: &[Term], second: &[Term]) -> Option<(Term, Term)> {
    difference(first, second).or_else(|| difference(second, first))
}
