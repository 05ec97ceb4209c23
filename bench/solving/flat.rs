//! The same as plain.rs, as fast as it was made without a proof: equal terms have one number, targets are lists that branches
//! share, all that a branch does is undone by a trail, and an entry whose root differs from the target's costs a move and
//! nothing else.
#[path = "../plain/scenes.rs"]
mod scenes;

use scenes::{Scene, Tree};
use std::collections::HashMap;
use std::io::Read;

type Term = u32;
const NONE: u32 = u32::MAX;
const APP: u8 = 0;

#[derive(Clone, Copy, PartialEq, Eq, Hash)]
struct Node {
    kind: u8,
    arity: u8,
    number: u32,
    /// Where the arguments begin.
    first: u32,
}

#[derive(Default)]
struct Store {
    nodes: Vec<Node>,
    closed: Vec<bool>,
    arguments: Vec<Term>,
    leaves: HashMap<(u8, u32), Term>,
    symbols: HashMap<(u32, Vec<Term>), Term>,
}

impl Store {
    fn push(&mut self, node: Node, closed: bool) -> Term {
        self.nodes.push(node);
        self.closed.push(closed);
        self.nodes.len() as u32 - 1
    }

    fn leaf(&mut self, kind: u8, number: u32) -> Term {
        if let Some(term) = self.leaves.get(&(kind, number)) {
            return *term;
        }
        let term = self.push(Node { kind, arity: 0, number, first: 0 }, kind != b'v');
        self.leaves.insert((kind, number), term);
        term
    }

    fn app(&mut self, symbol: u32, arguments: &[Term]) -> Term {
        if let Some(term) = self.symbols.get(&(symbol, arguments.to_vec())) {
            return *term;
        }
        let first = self.arguments.len() as u32;
        self.arguments.extend_from_slice(arguments);
        let closed = arguments.iter().all(|term| self.closed[*term as usize]);
        let term = self.push(Node { kind: APP, arity: arguments.len() as u8, number: symbol, first }, closed);
        self.symbols.insert((symbol, arguments.to_vec()), term);
        term
    }

    fn of(&mut self, tree: &Tree) -> Term {
        match tree {
            Tree::App(symbol, arguments) => {
                let arguments: Vec<Term> = arguments.iter().map(|tree| self.of(tree)).collect();
                self.app(*symbol, &arguments)
            }
            Tree::Leaf(kind, number) => self.leaf(*kind, *number as u32),
        }
    }

    fn argument(&self, node: Node, index: u32) -> Term {
        self.arguments[(node.first + index) as usize]
    }

    fn map(&mut self, term: Term, by: &mut dyn FnMut(&mut Store, u32) -> Option<Term>) -> Term {
        if self.closed[term as usize] {
            return term;
        }
        let node = self.nodes[term as usize];
        if node.kind != APP {
            return by(self, node.number).unwrap_or(term);
        }
        let mut made = [0; 8];
        for index in 0..node.arity as u32 {
            let argument = self.argument(node, index);
            made[index as usize] = self.map(argument, by);
        }
        self.app(node.number, &made[..node.arity as usize])
    }

    fn contains(&self, term: Term, part: Term) -> bool {
        let node = self.nodes[term as usize];
        term == part || (0..node.arity as u32).any(|index| self.contains(self.argument(node, index), part))
    }
}

struct Ready {
    m: u32,
    levels: Vec<u32>,
    entry_levels: Vec<u32>,
    values: Vec<Term>,
    compositions: Vec<Term>,
    labels: Vec<Term>,
    disequations: Vec<(Vec<u64>, Vec<(Term, Term)>)>,
    equations: Vec<(Term, Term)>,
    targets: Vec<(u32, Term)>,
    next: u32,
}

fn pairs(store: &mut Store, pairs: &[(Tree, Tree)]) -> Vec<(Term, Term)> {
    pairs.iter().map(|(left, right)| (store.of(left), store.of(right))).collect()
}

fn ready(store: &mut Store, scene: &Scene) -> Ready {
    Ready {
        m: scene.m,
        levels: scene.levels.clone(),
        entry_levels: scene.entry_levels.clone(),
        values: scene.values.iter().map(|tree| store.of(tree)).collect(),
        compositions: scene.compositions.iter().map(|tree| store.of(tree)).collect(),
        labels: scene.labels.iter().map(|tree| store.of(tree)).collect(),
        disequations: scene.disequations.iter().map(|(free, ps)| (free.clone(), pairs(store, ps))).collect(),
        equations: pairs(store, &scene.equations),
        targets: scene.targets.iter().map(|(level, term)| (*level, store.of(term))).collect(),
        next: scene.next as u32,
    }
}

#[derive(Clone, Copy)]
struct Target {
    name: u32,
    level: u32,
    term: Term,
    /// The place of the next one.
    next: u32,
}

#[derive(Clone, Copy)]
struct Cell {
    theta: Term,
    /// A term, or a symbol over variables from this one on.
    tree: u32,
    symbol: u32,
    arity: u8,
    level: u32,
}

const EMPTY: Cell = Cell { theta: NONE, tree: NONE, symbol: 0, arity: 0, level: NONE };

/// What stays from one search to the next.
struct Search {
    store: Store,
    cells: Vec<Cell>,
    trail: Vec<(u8, u32)>,
    front: Vec<Target>,
    back: Vec<Target>,
    moves: u64,
    found: usize,
}

impl Search {
    fn grow(&mut self, variable: u32) {
        if self.cells.len() <= variable as usize {
            self.cells.resize(variable as usize * 2 + 16, EMPTY);
        }
    }

    fn put(&mut self, variable: u32, term: Term) {
        self.cells[variable as usize].theta = term;
        self.trail.push((0, variable));
    }

    fn give(&mut self, variable: u32, tree: u32, symbol: u32, arity: u8) {
        let cell = &mut self.cells[variable as usize];
        (cell.tree, cell.symbol, cell.arity) = (tree, symbol, arity);
        self.trail.push((1, variable));
    }

    fn undo(&mut self, mark: usize) {
        while self.trail.len() > mark {
            let (kind, variable) = self.trail.pop().unwrap();
            let cell = &mut self.cells[variable as usize];
            match kind {
                0 => cell.theta = NONE,
                1 => cell.tree = NONE,
                _ => cell.level = NONE,
            }
        }
    }

    fn variable(&self, term: Term) -> Option<u32> {
        let node = self.store.nodes[term as usize];
        (node.kind == b'v').then_some(node.number)
    }

    fn walk(&self, mut term: Term) -> Term {
        while let Some(variable) = self.variable(term) {
            let next = self.cells[variable as usize].theta;
            if next == NONE {
                break;
            }
            term = next;
        }
        term
    }

    fn occurs(&self, variable: u32, term: Term) -> bool {
        if self.store.closed[term as usize] {
            return false;
        }
        let node = self.store.nodes[term as usize];
        if node.kind == APP {
            return (0..node.arity as u32).any(|index| self.occurs(variable, self.store.argument(node, index)));
        }
        let next = self.cells[node.number as usize].theta;
        node.number == variable || next != NONE && self.occurs(variable, next)
    }

    fn bind(&mut self, variable: u32, term: Term) -> bool {
        if self.occurs(variable, term) {
            return false;
        }
        self.put(variable, term);
        true
    }

    fn unify(&mut self, left: Term, right: Term) -> bool {
        let (left, right) = (self.walk(left), self.walk(right));
        if left == right {
            return true;
        }
        match (self.variable(left), self.variable(right)) {
            (Some(x), Some(y)) => {
                let key = |variable: u32| (self.cells[variable as usize].level, variable);
                if key(x) < key(y) {
                    self.put(y, left);
                } else {
                    self.put(x, right);
                }
                true
            }
            (Some(x), None) => self.bind(x, right),
            (None, Some(y)) => self.bind(y, left),
            (None, None) => {
                let (l, r) = (self.store.nodes[left as usize], self.store.nodes[right as usize]);
                l.kind == APP
                    && r.kind == APP
                    && l.number == r.number
                    && l.arity == r.arity
                    && !(self.store.closed[left as usize] && self.store.closed[right as usize])
                    && (0..l.arity as u32).all(|i| self.unify(self.store.argument(l, i), self.store.argument(r, i)))
            }
        }
    }

    fn newly_bound(&mut self, mark: usize) {
        let mut bound: Vec<u32> = Vec::new();
        for (kind, variable) in &self.trail[mark..] {
            if *kind == 0 && self.cells[*variable as usize].level != NONE {
                bound.push(*variable);
            }
        }
        bound.sort();
        for variable in bound {
            let own = self.store.leaf(b'v', variable);
            let term = self.walk(own);
            if self.variable(term).is_some() {
                self.give(variable, term, 0, 0);
            } else {
                let level = self.cells[variable as usize].level;
                self.back.push(Target { name: variable, level, term, next: NONE });
            }
        }
    }

    fn search(&mut self, scene: &Ready, mut front: u32, mut back: usize, mut next: u32) {
        loop {
            let Target { name, level, term, .. } = if front != NONE {
                let target = self.front[front as usize];
                front = target.next;
                target
            } else if back < self.back.len() {
                back += 1;
                self.back[back - 1]
            } else {
                return self.finish(scene);
            };
            self.grow(name.max(next));
            let term = self.walk(term);
            if let Some(variable) = self.variable(term) {
                self.moves += 1;
                self.follow(name, level, variable, term);
                continue;
            }
            self.enter(scene, Target { name, level, term, next: front }, back, next);
            let node = self.store.nodes[term as usize];
            match node.kind {
                APP => {
                    let first = next;
                    next += node.arity as u32;
                    self.grow(next);
                    self.give(name, first, node.number, node.arity);
                    for index in (0..node.arity as u32).rev() {
                        let term = self.store.argument(node, index);
                        self.front.push(Target { name: first + index, level, term, next: front });
                        front = self.front.len() as u32 - 1;
                    }
                }
                b'a' => self.give(name, term, 0, 0),
                b'r' if level == scene.m => self.give(name, term, 0, 0),
                _ => return,
            }
            self.moves += 1;
        }
    }

    fn follow(&mut self, name: u32, level: u32, variable: u32, term: Term) {
        let least = self.cells[variable as usize].level;
        if least != NONE && least <= level {
            return self.give(name, term, 0, 0);
        }
        self.cells[name as usize].level = level;
        self.trail.push((2, name));
        let new = self.store.leaf(b'v', name);
        self.put(variable, new);
        self.give(variable, new, 0, 0);
    }

    fn may_meet(&self, value: Term, term: Term) -> bool {
        let (l, r) = (self.store.nodes[value as usize], self.store.nodes[term as usize]);
        l.kind == b'v' || l.kind == r.kind && l.number == r.number
    }

    fn enter(&mut self, scene: &Ready, target: Target, back: usize, next: u32) {
        for entry in 0..scene.values.len() {
            if scene.entry_levels[entry] > target.level {
                continue;
            }
            self.moves += 1;
            if !self.may_meet(scene.values[entry], target.term) {
                continue;
            }
            let (mark, fronts, backs) = (self.trail.len(), self.front.len(), self.back.len());
            if self.unify(scene.values[entry], target.term) {
                self.newly_bound(mark);
                let tree = self.store.leaf(b'e', entry as u32 + 1);
                self.give(target.name, tree, 0, 0);
                self.search(scene, target.next, back, next);
            }
            self.undo(mark);
            self.front.truncate(fronts);
            self.back.truncate(backs);
        }
    }

    fn tree(&mut self, variable: u32) -> Option<Term> {
        let cell = self.cells[variable as usize];
        if cell.tree == NONE {
            return None;
        }
        if cell.arity == 0 {
            return Some(self.variable(cell.tree).and_then(|next| self.tree(next)).unwrap_or(cell.tree));
        }
        let mut made = [0; 8];
        for index in 0..cell.arity as u32 {
            let own = self.store.leaf(b'v', cell.tree + index);
            made[index as usize] = self.tree(cell.tree + index).unwrap_or(own);
        }
        Some(self.store.app(cell.symbol, &made[..cell.arity as usize]))
    }

    fn finish(&mut self, scene: &Ready) {
        let mut bindings = Vec::new();
        for variable in 1..=scene.levels.len() as u32 {
            if let Some(tree) = self.tree(variable) {
                bindings.push((variable, tree));
            }
        }
        let mut put = |_: &mut Store, variable: u32| bindings.iter().find(|pair| pair.0 == variable).map(|pair| pair.1);
        for label in &scene.labels {
            let label = self.store.map(*label, &mut put);
            for composition in &scene.compositions {
                let composition = self.store.map(*composition, &mut put);
                if self.store.contains(label, composition) {
                    return;
                }
            }
        }
        for (free, pairs) in &scene.disequations {
            let mut matched = Vec::new();
            if pairs.iter().all(|(tree, pattern)| {
                let (tree, pattern) = (self.store.map(*tree, &mut put), self.store.map(*pattern, &mut put));
                self.extends(&mut matched, free, pattern, tree)
            }) {
                return;
            }
        }
        for index in 0..scene.targets.len() as u32 {
            std::hint::black_box(self.tree(scene.next + index));
        }
        self.found += 1;
    }

    fn extends(&self, matched: &mut Vec<(u32, Term)>, free: &[u64], pattern: Term, tree: Term) -> bool {
        let (p, t) = (self.store.nodes[pattern as usize], self.store.nodes[tree as usize]);
        if p.kind == b'v' && free.contains(&(p.number as u64)) {
            if let Some(pair) = matched.iter().find(|pair| pair.0 == p.number) {
                return pair.1 == tree;
            }
            matched.push((p.number, tree));
            return true;
        }
        if p.kind != APP {
            return pattern == tree;
        }
        t.kind == APP
            && p.number == t.number
            && (0..p.arity as u32).all(|i| self.extends(matched, free, self.store.argument(p, i), self.store.argument(t, i)))
    }

    fn solve(&mut self, scene: &Ready) {
        let count = scene.targets.len() as u32;
        self.grow(scene.next + count);
        for (index, level) in scene.levels.iter().enumerate() {
            self.cells[index + 1].level = *level;
            self.trail.push((2, index as u32 + 1));
        }
        if scene.equations.iter().all(|(left, right)| self.unify(*left, *right)) {
            self.newly_bound(0);
            let mut front = NONE;
            for (index, (level, term)) in scene.targets.iter().enumerate().rev() {
                self.front.push(Target { name: scene.next + index as u32, level: *level, term: *term, next: front });
                front = self.front.len() as u32 - 1;
            }
            self.search(scene, front, 0, scene.next + count);
        }
        self.undo(0);
        self.front.clear();
        self.back.clear();
    }
}

fn main() {
    let mut text = String::new();
    std::io::stdin().read_to_string(&mut text).unwrap();
    let mut store = Store::default();
    let scenes: Vec<Ready> = scenes::scenes(&text).iter().map(|scene| ready(&mut store, scene)).collect();
    let mut search = Search { store, cells: Vec::new(), trail: Vec::new(), front: Vec::new(), back: Vec::new(), moves: 0, found: 0 };
    for _ in 0..100 {
        for scene in &scenes {
            search.solve(std::hint::black_box(scene));
        }
    }
    println!("{} moves, {} solutions", search.moves, search.found);
}
