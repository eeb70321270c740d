//! Questions whether one face implies another: by chance, and changed ones.
use judge::call::{Call, Name};
use judge::fixed::{and, ff, ft, zero};
use judge::formula::{AND, AT0, AT1, FF, FT, OR, Sort, Tree, at, leaf, pair, read_whole};
use judge::random::{Random, SHAPES, face};
use judge::text::notation;
use judge::worst::{changed, some_node};

/// Whether a implies b.
#[derive(Clone)]
pub struct Question {
    pub a: Tree,
    pub b: Tree,
}

impl Question {
    /// What a call of entails asks.
    pub fn of(call: &Call) -> Option<Self> {
        let read = |i: usize| read_whole(&call.operands[i], Sort::Face);
        (call.name == Name::Entails).then(|| Self { a: read(0).expect("a face"), b: read(1).expect("a face") })
    }
    pub fn d(&self) -> usize {
        self.a.bound().max(self.b.bound())
    }
    pub fn call(&self) -> Call {
        Call::new(Name::Entails, self.d(), &[&self.a, &self.b])
    }
    pub fn fits(&self, nodes: usize) -> bool {
        self.a.nodes().max(self.b.nodes()) <= nodes
    }
    pub fn text(&self) -> String {
        let (a, b) = (&self.a, &self.b);
        format!("entails {}, nodes {} and {}\n  {}\n  to {}", self.d(), a.nodes(), b.nodes(), notation(a), notation(b))
    }
}

/// So many dimensions, low ones.
fn some_dims(random: &mut Random) -> Vec<u8> {
    (0..*random.pick(&[0, 1, 2, 3, 5, 8, 30, 255])).collect()
}

fn any(random: &mut Random, nodes: usize, dims: &[u8]) -> Tree {
    let shape = *random.pick(&SHAPES);
    face(random, shape, nodes, dims)
}

/// A conjunction of few different groups, again and again: the known worst ones are such.
fn groups(random: &mut Random, nodes: usize, dims: &[u8]) -> Tree {
    let size = random.between(1, 9);
    let some: Vec<_> = (0..random.between(1, 4)).map(|_| any(random, size, dims)).collect();
    let mut out = random.pick(&some).clone();
    let mut left = nodes - out.nodes().min(nodes);
    loop {
        let group = random.pick(&some).clone();
        if group.nodes() + 1 > left {
            return out;
        }
        left -= group.nodes() + 1;
        let kind = if random.chance(95) { AND } else { OR };
        out = if random.chance(50) { pair(kind, group, out) } else { pair(kind, out, group) };
    }
}

/// A question of at most so many nodes a face.
pub fn random_question(random: &mut Random, most: usize) -> Question {
    let dims = some_dims(random);
    let nodes = if random.chance(50) { most } else { random.size(most) };
    let a = if random.chance(60) { groups(random, nodes, &dims) } else { any(random, nodes, &dims) };
    let b = match random.below(6) {
        0 => pair(OR, ff(), ft()),
        1 => and(zero(0), ft()),
        2 => groups(random, nodes, &dims),
        3 => ff(),
        4 => {
            let small = random.size(15.min(most));
            any(random, small, &dims)
        }
        _ => any(random, nodes, &dims),
    };
    Question { a, b }
}

fn some_leaf(random: &mut Random, dims: &[u8]) -> Tree {
    let kind = *random.pick(&[FF, FT, AT0, AT1, AT0, AT1]);
    if dims.is_empty() || matches!(kind, FF | FT) {
        return leaf(*random.pick(&[FF, FT]));
    }
    at(kind, *random.pick(dims))
}

/// A node that has no parts, from anywhere.
fn tip<'a>(t: &'a mut Tree, random: &mut Random) -> &'a mut Tree {
    if t.parts.is_empty() {
        return t;
    }
    let i = random.below(t.parts.len());
    tip(&mut t.parts[i], random)
}

/// The tree with one thing changed; the donor is another tree that parts may come from.
fn mutated(t: &Tree, donor: &Tree, random: &mut Random, dims: &[u8]) -> Tree {
    let mut out = t.clone();
    match random.below(8) {
        0 | 1 => return changed(t, random, dims),
        2 => *tip(&mut out, random) = some_leaf(random, dims),
        3 => *tip(&mut out, random) = leaf(*random.pick(&[FF, FT])),
        // A part in the place of another, of this tree or the donor.
        4 => {
            let part = some_node(&mut out.clone(), random).clone();
            *some_node(&mut out, random) = part;
        }
        5 => {
            let part = some_node(&mut donor.clone(), random).clone();
            *some_node(&mut out, random) = part;
        }
        // A part twice.
        6 => {
            let node = some_node(&mut out, random);
            *node = pair(*random.pick(&[AND, OR]), node.clone(), node.clone());
        }
        // The whole with a part more.
        _ => {
            let part = some_node(&mut out.clone(), random).clone();
            out = pair(AND, part, out);
        }
    }
    out
}

/// The question with one to three things changed, within so many nodes a face.
pub fn mutant(question: &Question, donor: &Question, random: &mut Random, most: usize) -> Question {
    let dims = some_dims(random);
    let mut out = question.clone();
    for _ in 0..random.between(1, 3) {
        let mut next = out.clone();
        if random.chance(80) {
            next.a = mutated(&out.a, &donor.a, random, &dims);
        } else {
            next.b = mutated(&out.b, &donor.b, random, &dims);
        }
        if next.fits(most) {
            out = next;
        }
    }
    out
}
