//! Scenes and asks, read from the words that `texts.py` writes.

pub enum Tree {
    App(u32, Vec<Tree>),
    Leaf(u8, u64),
}

#[derive(Default)]
pub struct Scene {
    pub m: u32,
    pub levels: Vec<u32>,
    pub entry_levels: Vec<u32>,
    pub values: Vec<Tree>,
    pub compositions: Vec<Tree>,
    pub labels: Vec<Tree>,
    pub disequations: Vec<(Vec<u64>, Vec<(Tree, Tree)>)>,
    pub equations: Vec<(Tree, Tree)>,
    pub targets: Vec<(u32, Tree)>,
    /// The name of the first target.
    pub next: u64,
}

pub fn scenes(text: &str) -> Vec<Scene> {
    let mut read = Vec::new();
    let mut scene = Scene::default();
    let mut stack: Vec<Tree> = Vec::new();
    let (mut free, mut pairs) = (Vec::new(), Vec::new());
    for word in text.split_whitespace() {
        let (kind, number) = word.split_at(1);
        let number: u64 = number.parse().unwrap();
        match kind.as_bytes()[0] {
            b'M' => scene.m = number as u32,
            b'V' => scene.levels.push(number as u32),
            b'E' => {
                scene.values.push(stack.pop().unwrap());
                stack.pop();
                scene.entry_levels.push(number as u32);
            }
            b'C' => scene.compositions.push(stack.pop().unwrap()),
            b'B' => scene.labels.push(stack.pop().unwrap()),
            b'F' => free.push(number),
            b'P' => {
                let pattern = stack.pop().unwrap();
                pairs.push((stack.pop().unwrap(), pattern));
            }
            b'D' => scene.disequations.push((std::mem::take(&mut free), std::mem::take(&mut pairs))),
            b'Q' => {
                let right = stack.pop().unwrap();
                scene.equations.push((stack.pop().unwrap(), right));
            }
            b'T' => scene.targets.push((number as u32, stack.pop().unwrap())),
            b'S' => {
                scene.next = number;
                read.push(std::mem::take(&mut scene));
            }
            kind @ (b'u' | b'p' | b't') => {
                let arity = 1 + b"upt".iter().position(|k| *k == kind).unwrap();
                let arguments = stack.split_off(stack.len() - arity);
                stack.push(Tree::App(number as u32 * 4 + arity as u32, arguments));
            }
            kind => stack.push(Tree::Leaf(kind, number)),
        }
    }
    read
}
