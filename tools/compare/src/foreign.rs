//! Ledgers that no call made, well formed: judgements that stand twice, steps left out, steps in another order, other kinds and
//! references, and cover steps that nobody derived, false ones among them; and the calls that would have made such steps.
use crate::expected::List;
use crate::lists::{is_short, list_of};
use crate::plain::steps::Operand::{Context, Formula};
use crate::plain::steps::{Plain, Step, bytes, records};
use judge::call::{Call, Name};
use judge::door;
use judge::fixed;
use judge::formula::{Sort, Tree, read};
use judge::ledger::{self, LONGEST};
use judge::lists::{self, Style};
use judge::random::Random;
use judge::rules;
use judge::worst::{EMITTING, EXPONENTIAL, question};
use std::collections::{BTreeSet, HashMap};

/// Few dimensions and calls, since all that they search for is put into the ledger.
const STYLE: Style =
    Style { most_nodes: 11, most_calls: 6, most_covers: 150, most_dims: 3, lengths: &[LONGEST], broken: 2 };

/// Calls with more steps are not taken apart.
const MOST_APART: usize = 60;

/// The kinds of a predicate.
fn kinds(predicate: &str) -> Vec<usize> {
    (1..=rules::RULES.len()).filter(|k| rules::predicate(rules::name(*k)) == predicate).collect()
}

fn is_cover(step: &Step) -> bool {
    step.predicate() == "cover"
}

/// How a ledger is made, in hundreds.
struct Habits {
    keep: usize,
    double: usize,
    alter: usize,
    covers: usize,
    shuffle: bool,
}

/// The steps as they come.
const AS_IT_IS: Habits = Habits { keep: 100, double: 0, alter: 0, covers: 0, shuffle: false };

impl Habits {
    fn new(random: &mut Random) -> Self {
        Self {
            keep: *random.pick(&[0, 30, 70, 100, 100]),
            double: *random.pick(&[0, 5, 30, 100]),
            alter: *random.pick(&[0, 0, 20, 100]),
            covers: *random.pick(&[0, 10, 50, 100]),
            shuffle: random.chance(30),
        }
    }
}

/// A step of some kind with this predicate; its references are chosen later.
fn any_kind(predicate: &str, operands: Vec<u8>, random: &mut Random) -> Step {
    let kind = *random.pick(&kinds(predicate));
    Step { kind, references: vec![usize::MAX; ledger::references(kind)], operands }
}

/// The faces among the operands of the calls that are let in.
fn faces(calls: &[Call]) -> Vec<Tree> {
    let operands = calls.iter().filter_map(|call| door::admit(call).ok()).flat_map(|seen| seen.operands);
    operands.filter(|t| t.sort() == Sort::Face && t.nodes() <= 2 * STYLE.most_nodes).collect()
}

/// Some face covers another, whether it does or not.
fn any_cover(faces: &[Tree], random: &mut Random) -> Vec<u8> {
    let some = |r: &mut Random| {
        let mut t = r.pick(faces);
        while !t.parts.is_empty() && r.chance(60) {
            t = r.pick(&t.parts);
        }
        t
    };
    let context: Vec<_> = (0..random.below(4)).map(|_| some(random)).collect();
    bytes(&[Context(&context), Formula(some(random))])
}

/// The claim of a call as operands, whether it holds or not.
fn claim(call: &Call) -> Option<Vec<u8>> {
    let is = call.name == Name::Entails && door::admit(call).is_ok();
    is.then(|| [&[call.number as u8][..], &call.operands.concat()].concat())
}

/// What the calls would emit, each with its number, and what their searches and claims say, in any kind.
fn candidates(calls: &[Call], habits: &Habits, random: &mut Random) -> Vec<(Option<usize>, Step)> {
    let mut free = Plain { met: Some(vec![]), ..Plain::new(LONGEST, vec![]) };
    calls.iter().for_each(|call| drop(free.ask(call)));
    let mut out: Vec<_> = free.steps.into_iter().enumerate().map(|(i, s)| (Some(i), s)).collect();
    out.retain(|_| random.chance(habits.keep));
    let mut said: Vec<_> = free.met.unwrap().into_iter().map(|cover| ("cover", cover)).collect();
    let faces = faces(calls);
    if !faces.is_empty() {
        said.extend((0..6).map(|_| ("cover", any_cover(&faces, random))));
    }
    said.extend(calls.iter().filter_map(claim).map(|claim| ("entails", claim)));
    said.retain(|_| random.chance(habits.covers));
    for (predicate, operands) in said {
        let step = any_kind(predicate, operands, random);
        out.insert(random.below(out.len() + 1), (None, step));
    }
    out
}

/// The step at the end of these: with the references that it had where they are still there, else any.
fn placed(mut step: Step, steps: &[Step], places: &HashMap<usize, usize>, random: &mut Random) -> Step {
    let any = |r: &mut Random| r.below(steps.len());
    step.references.iter_mut().for_each(|r| *r = places.get(r).copied().unwrap_or_else(|| any(random)));
    step
}

/// The steps in a row, doubled and altered.
fn laid_out(candidates: Vec<(Option<usize>, Step)>, habits: &Habits, random: &mut Random) -> Vec<Step> {
    let (mut steps, mut places) = (vec![], HashMap::new());
    for (old, step) in candidates {
        let step = if random.chance(habits.alter) { any_kind(step.predicate(), step.operands, random) } else { step };
        if steps.is_empty() && !step.references.is_empty() {
            // Zero is below 255: a first step that has no references.
            steps.push(Step { kind: 1, references: vec![], operands: vec![0, 255] });
        }
        let step = placed(step, &steps, &places, random);
        if let Some(old) = old {
            places.entry(old).or_insert(steps.len());
        }
        steps.push(step);
        if random.chance(habits.double) {
            let mut twin = random.pick(&steps).clone();
            if random.chance(50) {
                twin = placed(any_kind(twin.predicate(), twin.operands, random), &steps, &places, random);
            }
            steps.push(twin);
        }
    }
    steps
}

fn shuffle<T>(items: &mut [T], random: &mut Random) {
    for i in (1..items.len()).rev() {
        items.swap(i, random.below(i + 1));
    }
}

/// A length that holds all, ends within what the calls add, or is exactly what they need.
fn some_length(start: &[Step], calls: &[Call], random: &mut Random) -> usize {
    let mut free = Plain::new(LONGEST, start.to_vec());
    let before = free.used;
    let used: Vec<_> = calls.iter().map(|call| (free.ask(call), free.used).1).collect();
    let some = *random.pick(&used);
    match random.below(10) {
        0 => before,
        1 => random.between(before, free.used),
        2 => some,
        3 => before.max(some - 1),
        4 => LONGEST,
        _ => free.used + random.below(300),
    }
}

/// One list by its seed: a foreign ledger, and calls, some of them asked twice in a row.
pub fn made(seed: u64) -> List {
    let mut random = Random::new(seed ^ 0xf0f0);
    let (_, calls) = lists::list(seed ^ 0xf0f0, STYLE);
    let habits = Habits::new(&mut random);
    let mut candidates = candidates(&calls, &habits, &mut random);
    if habits.shuffle {
        shuffle(&mut candidates, &mut random);
    }
    let start = laid_out(candidates, &habits, &mut random);
    let length = some_length(&start, &calls, &mut random);
    let twice = random.chance(70);
    let asked = calls.into_iter().filter(is_short).flat_map(|c| vec![c; if twice { 2 } else { 1 }]).collect();
    List { start: records(&start), ..list_of(length, asked) }
}

/// The calls whose steps are taken apart one by one: small searches that repeat themselves, and every kind.
fn taken_apart() -> Vec<Call> {
    let repeating = EXPONENTIAL.iter().flat_map(|(_, family, _)| (1..=4).map(|n| question(*family, n)));
    let emitting = EMITTING.iter().flat_map(|(_, family, _)| (1..=3).map(|n| question(*family, n)));
    let others = fixed::every_kind().into_iter().flat_map(|(_, calls)| calls);
    repeating.chain(emitting).chain(others).collect()
}

/// Around the steps of one call, if they are not many: each of them left out, alone, twice, and only those before it; and each
/// cover that its search meets alone, whether it holds or not. The call is asked twice.
fn around(call: &Call) -> Vec<List> {
    let mut free = Plain { met: Some(vec![]), ..Plain::new(LONGEST, vec![]) };
    free.ask(call);
    if free.steps.len() > MOST_APART {
        return vec![];
    }
    let all: Vec<_> = free.steps.iter().cloned().enumerate().map(|(i, s)| (Some(i), s)).collect();
    let list = |candidates: Vec<_>| {
        let start = laid_out(candidates, &AS_IT_IS, &mut Random::new(1));
        List { start: records(&start), ..list_of(3 * free.used + 100, vec![call.clone(); 2]) }
    };
    let lists = |i: usize| {
        let without = [&all[..i], &all[i + 1..]].concat();
        let twice = [&all[..], &[(None, all[i].1.clone())]].concat();
        [without, vec![all[i].clone()], twice, all[..i].to_vec()].map(list)
    };
    let met = free.met.iter().flatten().collect::<BTreeSet<_>>();
    let alone =
        |cover: &Vec<u8>| list(vec![(None, any_kind("cover", cover.clone(), &mut Random::new(cover.len() as u64)))]);
    (0..all.len()).flat_map(lists).chain(met.into_iter().map(alone)).collect()
}

/// The foreign ledgers that are made by hand.
pub fn fixed() -> Vec<List> {
    taken_apart().iter().flat_map(around).collect()
}

/// What a foreign ledger has.
#[derive(Default)]
pub struct Traits {
    pub twice: bool,
    /// Cover steps that say what is not so.
    pub false_covers: usize,
}

/// A context's faces and the goal.
fn cover_parts(mut operands: &[u8]) -> Vec<Tree> {
    let count = usize::from(operands[0]) + 256 * usize::from(operands[1]);
    operands = &operands[2..];
    let mut next = || {
        let (tree, rest) = read(operands, Sort::Face).expect("a face");
        operands = rest;
        tree
    };
    (0..=count).map(|_| next()).collect()
}

fn covers(operands: &[u8]) -> bool {
    let all = cover_parts(operands);
    let (goal, faces) = all.split_last().expect("a goal");
    Plain::remembering(LONGEST, vec![]).cover(&faces.iter().collect::<Vec<_>>(), goal).is_ok()
}

pub fn traits(steps: &[Step]) -> Traits {
    let twice = steps
        .iter()
        .enumerate()
        .any(|(i, s)| steps[..i].iter().any(|t| t.operands == s.operands && t.predicate() == s.predicate()));
    let false_covers = steps.iter().filter(|s| is_cover(s) && !covers(&s.operands)).count();
    Traits { twice, false_covers }
}
