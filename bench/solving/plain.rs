//! Reads scenes and asks from standard input, searches each ask's most general solutions 100 times, and prints how many there
//! are and how many moves were made. Terms are shared by reference counts, and bindings are undone by a trail. Each variable
//! and each target has a cell of its own.
#[path = "../plain/scenes.rs"]
mod scenes;

use scenes::{Scene, Tree};
use std::io::Read;
use std::rc::Rc;

const HAS_VARIABLES: u8 = 1;

enum Node {
    App(u32, Vec<Term>),
    Leaf(u8, u64),
}

#[derive(Clone)]
struct Term(Rc<(Node, u8)>);

impl PartialEq for Term {
    fn eq(&self, other: &Term) -> bool {
        Rc::ptr_eq(&self.0, &other.0)
            || match (&self.0.0, &other.0.0) {
                (Node::App(f, ts), Node::App(g, us)) => f == g && ts == us,
                (Node::Leaf(k, m), Node::Leaf(l, n)) => k == l && m == n,
                _ => false,
            }
    }
}

impl Term {
    fn app(symbol: u32, arguments: Vec<Term>) -> Term {
        let flags = arguments.iter().fold(0, |flags, term| flags | term.0.1);
        Term(Rc::new((Node::App(symbol, arguments), flags)))
    }

    fn leaf(kind: u8, number: u64) -> Term {
        Term(Rc::new((Node::Leaf(kind, number), if kind == b'v' { HAS_VARIABLES } else { 0 })))
    }

    fn of(tree: &Tree) -> Term {
        match tree {
            Tree::App(symbol, arguments) => Term::app(*symbol, arguments.iter().map(Term::of).collect()),
            Tree::Leaf(kind, number) => Term::leaf(*kind, *number),
        }
    }

    fn variable(&self) -> Option<usize> {
        match &self.0.0 {
            Node::Leaf(b'v', number) => Some(*number as usize),
            _ => None,
        }
    }

    fn has_variables(&self) -> bool {
        self.0.1 & HAS_VARIABLES != 0
    }

    fn map(&self, by: &dyn Fn(usize) -> Option<Term>) -> Term {
        if !self.has_variables() {
            return self.clone();
        }
        match &self.0.0 {
            Node::App(symbol, arguments) => Term::app(*symbol, arguments.iter().map(|term| term.map(by)).collect()),
            Node::Leaf(_, number) => by(*number as usize).unwrap_or_else(|| self.clone()),
        }
    }

    fn contains(&self, part: &Term) -> bool {
        self == part
            || match &self.0.0 {
                Node::App(_, arguments) => arguments.iter().any(|term| term.contains(part)),
                Node::Leaf(_, _) => false,
            }
    }
}

struct Ready {
    m: u32,
    levels: Vec<u32>,
    entry_levels: Vec<u32>,
    values: Vec<Term>,
    compositions: Vec<Term>,
    labels: Vec<Term>,
    disequations: Vec<(Vec<u64>, Vec<(Term, Term)>)>,
    equations: Vec<(Term, Term)>,
    targets: Vec<(u32, Term)>,
    next: usize,
}

fn pairs(pairs: &[(Tree, Tree)]) -> Vec<(Term, Term)> {
    pairs.iter().map(|(left, right)| (Term::of(left), Term::of(right))).collect()
}

fn ready(scene: &Scene) -> Ready {
    let all = |trees: &[Tree]| trees.iter().map(Term::of).collect();
    Ready {
        m: scene.m,
        levels: scene.levels.clone(),
        entry_levels: scene.entry_levels.clone(),
        values: all(&scene.values),
        compositions: all(&scene.compositions),
        labels: all(&scene.labels),
        disequations: scene.disequations.iter().map(|(free, ps)| (free.clone(), pairs(ps))).collect(),
        equations: pairs(&scene.equations),
        targets: scene.targets.iter().map(|(level, term)| (*level, Term::of(term))).collect(),
        next: scene.next as usize,
    }
}

#[derive(Clone)]
struct Target {
    name: usize,
    level: u32,
    term: Term,
}

/// What a variable has: what is put for it, its tree, its level.
#[derive(Clone, Default)]
struct Cell {
    theta: Option<Term>,
    tree: Option<Term>,
    level: Option<u32>,
}

#[derive(Clone, Copy)]
enum Change {
    Theta(usize),
    Tree(usize),
    Level(usize),
}

struct Search<'a> {
    scene: &'a Ready,
    cells: Vec<Cell>,
    trail: Vec<Change>,
    moves: u64,
    found: Vec<(Vec<(usize, Term)>, Vec<Term>)>,
}

impl<'a> Search<'a> {
    fn grow(&mut self, variable: usize) {
        if self.cells.len() <= variable {
            self.cells.resize(variable + 1, Cell::default());
        }
    }

    fn put(&mut self, variable: usize, term: Term) {
        self.cells[variable].theta = Some(term);
        self.trail.push(Change::Theta(variable));
    }

    fn give(&mut self, variable: usize, tree: Term) {
        self.cells[variable].tree = Some(tree);
        self.trail.push(Change::Tree(variable));
    }

    fn undo(&mut self, mark: usize) {
        while self.trail.len() > mark {
            match self.trail.pop().unwrap() {
                Change::Theta(variable) => self.cells[variable].theta = None,
                Change::Tree(variable) => self.cells[variable].tree = None,
                Change::Level(variable) => self.cells[variable].level = None,
            }
        }
    }

    fn walk(&self, term: &Term) -> Term {
        let mut term = term.clone();
        while let Some(next) = term.variable().and_then(|variable| self.cells[variable].theta.clone()) {
            term = next;
        }
        term
    }

    fn occurs(&self, variable: usize, term: &Term) -> bool {
        match &term.0.0 {
            Node::App(_, arguments) => term.has_variables() && arguments.iter().any(|term| self.occurs(variable, term)),
            Node::Leaf(b'v', number) => {
                *number as usize == variable
                    || self.cells[*number as usize].theta.as_ref().is_some_and(|term| self.occurs(variable, term))
            }
            Node::Leaf(_, _) => false,
        }
    }

    fn precedes(&self, first: usize, second: usize) -> bool {
        let key = |variable: usize| (self.cells[variable].level.unwrap_or(u32::MAX), variable);
        key(first) < key(second)
    }

    fn unify(&mut self, left: &Term, right: &Term) -> bool {
        let (left, right) = (self.walk(left), self.walk(right));
        match (left.variable(), right.variable()) {
            (Some(x), Some(y)) if x == y => true,
            (Some(x), Some(y)) => {
                if self.precedes(x, y) {
                    self.put(y, left);
                } else {
                    self.put(x, right);
                }
                true
            }
            (Some(x), None) => self.bind(x, right),
            (None, Some(y)) => self.bind(y, left),
            (None, None) => match (&left.0.0, &right.0.0) {
                (Node::App(f, ts), Node::App(g, us)) => f == g && ts.iter().zip(us).all(|(t, u)| self.unify(t, u)),
                _ => left == right,
            },
        }
    }

    fn bind(&mut self, variable: usize, term: Term) -> bool {
        if self.occurs(variable, &term) {
            return false;
        }
        self.put(variable, term);
        true
    }

    fn newly_bound(&mut self, mark: usize, targets: &mut Vec<Target>) {
        let mut bound: Vec<usize> = Vec::new();
        for change in &self.trail[mark..] {
            match change {
                Change::Theta(variable) if self.cells[*variable].level.is_some() => bound.push(*variable),
                _ => {}
            }
        }
        bound.sort();
        for variable in bound {
            let term = self.walk(&Term::leaf(b'v', variable as u64));
            if term.variable().is_some() {
                self.give(variable, term);
            } else {
                let level = self.cells[variable].level.unwrap();
                targets.insert(0, Target { name: variable, level, term });
            }
        }
    }

    /// The last target comes first.
    fn search(&mut self, mut targets: Vec<Target>, mut next: usize) {
        loop {
            let Some(Target { name, level, term }) = targets.pop() else {
                return self.finish();
            };
            self.grow(name.max(next));
            let term = self.walk(&term);
            if let Some(variable) = term.variable() {
                self.moves += 1;
                self.follow(name, level, variable);
                continue;
            }
            self.enter(name, level, &term, &targets, next);
            match &term.0.0 {
                Node::App(symbol, arguments) => {
                    let first = next;
                    next += arguments.len();
                    self.grow(next);
                    let variables = (first..next).map(|variable| Term::leaf(b'v', variable as u64)).collect();
                    self.give(name, Term::app(*symbol, variables));
                    for (index, argument) in arguments.iter().enumerate().rev() {
                        targets.push(Target { name: first + index, level, term: argument.clone() });
                    }
                }
                Node::Leaf(b'a', _) => self.give(name, term.clone()),
                Node::Leaf(b'r', _) if level == self.scene.m => self.give(name, term.clone()),
                Node::Leaf(_, _) => return,
            }
            self.moves += 1;
        }
    }

    fn follow(&mut self, name: usize, level: u32, variable: usize) {
        if self.cells[variable].level.is_some_and(|least| least <= level) {
            return self.give(name, Term::leaf(b'v', variable as u64));
        }
        self.cells[name].level = Some(level);
        self.trail.push(Change::Level(name));
        let new = Term::leaf(b'v', name as u64);
        self.put(variable, new.clone());
        self.give(variable, new);
    }

    fn enter(&mut self, name: usize, level: u32, term: &Term, targets: &[Target], next: usize) {
        let scene = self.scene;
        for entry in 0..scene.values.len() {
            if scene.entry_levels[entry] > level {
                continue;
            }
            self.moves += 1;
            let mark = self.trail.len();
            if self.unify(&scene.values[entry], term) {
                let mut targets = targets.to_vec();
                self.newly_bound(mark, &mut targets);
                self.give(name, Term::leaf(b'e', entry as u64 + 1));
                self.search(targets, next);
            }
            self.undo(mark);
        }
    }

    fn tree(&self, term: &Term) -> Term {
        term.map(&|variable| self.cells[variable].tree.as_ref().map(|tree| self.tree(tree)))
    }

    fn finish(&mut self) {
        let scene = self.scene;
        let mut bindings = Vec::new();
        for variable in 1..=scene.levels.len() {
            if self.cells[variable].tree.is_some() {
                bindings.push((variable, self.tree(&Term::leaf(b'v', variable as u64))));
            }
        }
        let put = |term: &Term| term.map(&|variable| bindings.iter().find(|pair| pair.0 == variable).map(|pair| pair.1.clone()));
        let compositions: Vec<Term> = scene.compositions.iter().map(put).collect();
        for label in &scene.labels {
            let label = put(label);
            if compositions.iter().any(|composition| label.contains(composition)) {
                return;
            }
        }
        for (free, pairs) in &scene.disequations {
            let mut matched = Vec::new();
            if pairs.iter().all(|(tree, pattern)| extends(&mut matched, free, &put(pattern), &put(tree))) {
                return;
            }
        }
        let answers = (0..scene.targets.len()).map(|i| self.tree(&Term::leaf(b'v', (scene.next + i) as u64))).collect();
        self.found.push((bindings, answers));
    }
}

fn extends(matched: &mut Vec<(u64, Term)>, free: &[u64], pattern: &Term, tree: &Term) -> bool {
    match (&pattern.0.0, &tree.0.0) {
        (Node::Leaf(b'v', number), _) if free.contains(number) => {
            if let Some(pair) = matched.iter().find(|pair| pair.0 == *number) {
                return pair.1 == *tree;
            }
            matched.push((*number, tree.clone()));
            true
        }
        (Node::App(f, ts), Node::App(g, us)) => f == g && ts.iter().zip(us).all(|(t, u)| extends(matched, free, t, u)),
        _ => pattern == tree,
    }
}

fn solve(scene: &Ready) -> (u64, usize) {
    let count = scene.targets.len();
    let mut search = Search { scene, cells: Vec::new(), trail: Vec::new(), moves: 0, found: Vec::new() };
    search.grow(scene.next + count);
    for (index, level) in scene.levels.iter().enumerate() {
        search.cells[index + 1].level = Some(*level);
    }
    if scene.equations.iter().all(|(left, right)| search.unify(left, right)) {
        let mut targets = Vec::new();
        search.newly_bound(0, &mut targets);
        for (index, (level, term)) in scene.targets.iter().enumerate().rev() {
            targets.push(Target { name: scene.next + index, level: *level, term: term.clone() });
        }
        search.search(targets, scene.next + count);
    }
    (search.moves, search.found.len())
}

fn main() {
    let mut text = String::new();
    std::io::stdin().read_to_string(&mut text).unwrap();
    let scenes: Vec<Ready> = scenes::scenes(&text).iter().map(ready).collect();
    let (mut moves, mut found) = (0, 0);
    for _ in 0..100 {
        for scene in &scenes {
            let (more, solutions) = std::hint::black_box(solve(std::hint::black_box(scene)));
            moves += more;
            found += solutions;
        }
    }
    println!("{moves} moves, {found} solutions");
}
