//! Comparison of two frames under rules, as a Rust programmer would write it: each frame is saturated, and what holds of
//! the saturated one is asked of the other.
use std::collections::HashMap;

#[derive(Clone, PartialEq, Eq, Hash)]
pub enum Term {
    App(u32, Vec<Term>),
    Public(u32),
    Private(u64),
    Var(u32),
    /// A message of the frame, or a kept term.
    Handle(usize),
    /// What the attacker may put for a variable that no kept term binds.
    Open(u32),
}

pub struct Rule {
    pub left: Term,
    pub right: Term,
}

pub enum Test {
    Value(Term),
    Equal(Term, Term),
}

impl Term {
    pub fn size(&self) -> u64 {
        match self {
            Term::App(_, arguments) => 1 + arguments.iter().map(Term::size).sum::<u64>(),
            _ => 1,
        }
    }

    fn arguments(&self) -> &[Term] {
        match self {
            Term::App(_, arguments) => arguments,
            _ => &[],
        }
    }

    /// The term with other leaves.
    fn mapped(&self, leaf: &impl Fn(&Term) -> Term) -> Term {
        match self {
            Term::App(symbol, arguments) => {
                Term::App(*symbol, arguments.iter().map(|argument| argument.mapped(leaf)).collect())
            }
            _ => leaf(self),
        }
    }
}

type Subst = Vec<(u32, Term)>;

fn bound(by: &Subst, variable: u32) -> Option<&Term> {
    by.iter().find(|(bound, _)| *bound == variable).map(|(_, term)| term)
}

fn matches(pattern: &Term, term: &Term, by: &mut Subst) -> bool {
    match (pattern, term) {
        (Term::Var(variable), _) => match bound(by, *variable) {
            Some(before) => before == term,
            None => {
                by.push((*variable, term.clone()));
                true
            }
        },
        (Term::App(f, patterns), Term::App(g, terms)) => {
            f == g && patterns.len() == terms.len() && patterns.iter().zip(terms).all(|(p, t)| matches(p, t, by))
        }
        _ => pattern == term,
    }
}

fn instance(pattern: &Term, by: &Subst) -> Term {
    pattern.mapped(&|leaf| match leaf {
        Term::Var(variable) => bound(by, *variable).cloned().unwrap_or(Term::Open(*variable)),
        _ => leaf.clone(),
    })
}

/// The value of a term, if each destructor in it computes.
fn evaluate(rules: &[Rule], term: &Term) -> Option<Term> {
    let Term::App(symbol, arguments) = term else {
        return Some(term.clone());
    };
    let values: Option<Vec<Term>> = arguments.iter().map(|argument| evaluate(rules, argument)).collect();
    let values = values?;
    if *symbol < FIRST_DESTRUCTOR {
        return Some(Term::App(*symbol, values));
    }
    rules.iter().find_map(|rule| {
        let Term::App(root, patterns) = &rule.left else {
            return None;
        };
        let mut by = Vec::new();
        let fits = root == symbol && patterns.iter().zip(&values).all(|(p, t)| matches(p, t, &mut by));
        fits.then(|| instance(&rule.right, &by))
    })
}

pub const FIRST_DESTRUCTOR: u32 = 7;

/// A use of a rule: ways that build its two sides.
struct RuleUse {
    left: Term,
    right: Term,
}

/// Recipes, their values, and the uses of rules over them.
#[derive(Default)]
struct Knowledge {
    recipes: Vec<Term>,
    kept: Vec<Term>,
    places: HashMap<Term, usize>,
    uses: Vec<RuleUse>,
}

impl Knowledge {
    fn keep(&mut self, recipe: Term, value: Term) {
        self.places.entry(value.clone()).or_insert(self.kept.len());
        self.recipes.push(recipe);
        self.kept.push(value);
    }

    fn way(&self, term: &Term) -> Option<Term> {
        match self.places.get(term) {
            Some(place) => Some(Term::Handle(*place)),
            None => self.composed(term),
        }
    }

    fn composed(&self, term: &Term) -> Option<Term> {
        match term {
            Term::App(symbol, arguments) => {
                let ways: Option<Vec<Term>> = arguments.iter().map(|argument| self.way(argument)).collect();
                Some(Term::App(*symbol, ways?))
            }
            Term::Public(_) | Term::Open(_) => Some(term.clone()),
            _ => None,
        }
    }

    /// The ways in which kept terms from a place on make a part of the pattern, and those before too.
    fn cover(&self, from: usize, pattern: &Term, start: &[Subst]) -> Vec<Subst> {
        let Term::App(..) = pattern else {
            return if from == 0 { start.to_vec() } else { Vec::new() };
        };
        let mut found = Vec::new();
        for by in start {
            for term in &self.kept[from..] {
                let mut more = by.clone();
                if matches(pattern, term, &mut more) {
                    found.push(more);
                }
            }
        }
        found.extend(self.cover_arguments(from, pattern, start));
        found
    }

    fn cover_arguments(&self, from: usize, pattern: &Term, start: &[Subst]) -> Vec<Subst> {
        let arguments = pattern.arguments();
        if from == 0 {
            return arguments.iter().fold(start.to_vec(), |found, argument| self.cover(0, argument, &found));
        }
        let mut found = Vec::new();
        for (pivot, argument) in arguments.iter().enumerate() {
            let mut ways = self.cover(from, argument, start);
            for (other, argument) in arguments.iter().enumerate() {
                if other != pivot && !ways.is_empty() {
                    ways = self.cover(0, argument, &ways);
                }
            }
            found.extend(ways);
        }
        found
    }

    /// Settles the use of the rule, if its left side is composed by now.
    fn settle(&mut self, rule: &Rule, by: &Subst) -> bool {
        let Some(left) = self.composed(&instance(&rule.left, by)) else {
            return false;
        };
        let value = instance(&rule.right, by);
        let right = match self.way(&value) {
            Some(way) => way,
            None => {
                let recipe = left.mapped(&|leaf| match leaf {
                    Term::Handle(place) => self.recipes[*place].clone(),
                    _ => leaf.clone(),
                });
                self.keep(recipe, value);
                Term::Handle(self.kept.len() - 1)
            }
        };
        self.uses.push(RuleUse { left, right });
        true
    }
}

fn saturated(rules: &[Rule], frame: &[Term]) -> Knowledge {
    let mut knowledge = Knowledge::default();
    for (place, message) in frame.iter().enumerate() {
        knowledge.keep(Term::Handle(place), message.clone());
    }
    let mut waiting: Vec<(usize, Subst)> = Vec::new();
    let mut asked = 0;
    loop {
        let end = knowledge.kept.len();
        for (number, rule) in rules.iter().enumerate() {
            let ways = knowledge.cover_arguments(asked, &rule.left, &[Vec::new()]);
            waiting.extend(ways.into_iter().map(|by| (number, by)));
        }
        waiting.retain(|(number, by)| !knowledge.settle(&rules[*number], by));
        if knowledge.kept.len() == end {
            return knowledge;
        }
        asked = end;
    }
}

fn put(way: &Term, terms: &[Term]) -> Term {
    way.mapped(&|leaf| match leaf {
        Term::Handle(place) => terms[*place].clone(),
        _ => leaf.clone(),
    })
}

/// A test that holds in the first frame and fails in the second.
fn refute(rules: &[Rule], first: &[Term], second: &[Term]) -> Option<Test> {
    let knowledge = saturated(rules, first);
    let mut counterparts: Vec<Term> = Vec::new();
    for recipe in &knowledge.recipes {
        match evaluate(rules, &put(recipe, second)) {
            Some(value) => counterparts.push(value),
            None => return Some(Test::Value(recipe.clone())),
        }
    }
    for (place, term) in knowledge.kept.iter().enumerate() {
        let before = knowledge.places[term];
        if counterparts[before] != counterparts[place] {
            return Some(Test::Equal(knowledge.recipes[before].clone(), knowledge.recipes[place].clone()));
        }
        if let Some(way) = knowledge.composed(term) {
            if put(&way, &counterparts) != counterparts[place] {
                return Some(Test::Equal(put(&way, &knowledge.recipes), knowledge.recipes[place].clone()));
            }
        }
    }
    for one in &knowledge.uses {
        match evaluate(rules, &put(&one.left, &counterparts)) {
            None => return Some(Test::Value(put(&one.left, &knowledge.recipes))),
            Some(value) if value != put(&one.right, &counterparts) => {
                return Some(Test::Equal(put(&one.left, &knowledge.recipes), put(&one.right, &knowledge.recipes)));
            }
            Some(_) => {}
        }
    }
    None
}

pub fn compare(rules: &[Rule], first: &[Term], second: &[Term]) -> Option<Test> {
    refute(rules, first, second).or_else(|| refute(rules, second, first))
}
