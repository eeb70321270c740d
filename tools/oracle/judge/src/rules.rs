//! Document 01's 75 rules in its order: name, conclusion, references. A word
//! that starts with ? is a variable. Kind numbers are places in this list.
pub const RULES: [&str; 75] = [
    "lt.z (lt z (s ?n))",
    "lt.s (lt (s ?m) (s ?n)) (lt ?m ?n)",
    "le.z (le z ?n)",
    "le.s (le (s ?m) (s ?n)) (le ?m ?n)",
    "interval.0 (interval ?d i0)",
    "interval.1 (interval ?d i1)",
    "interval.dim (interval ?d (dim ?n)) (lt ?n ?d)",
    "interval.neg (interval ?d (neg ?r)) (interval ?d ?r)",
    "interval.meet (interval ?d (meet ?r ?s)) (interval ?d ?r) (interval ?d ?s)",
    "interval.join (interval ?d (join ?r ?s)) (interval ?d ?r) (interval ?d ?s)",
    "face.ff (face ?d ff)",
    "face.ft (face ?d ft)",
    "face.0 (face ?d (at0 ?n)) (interval ?d (dim ?n))",
    "face.1 (face ?d (at1 ?n)) (interval ?d (dim ?n))",
    "face.and (face ?d (fand ?a ?b)) (face ?d ?a) (face ?d ?b)",
    "face.or (face ?d (for ?a ?b)) (face ?d ?a) (face ?d ?b)",
    "member.here (member ?f (fc ?f ?G))",
    "member.there (member ?f (fc ?g ?G)) (member ?f ?G)",
    "take.here (take (fc ?f ?G) ?f ?G)",
    "take.there (take (fc ?g ?G) ?f (fc ?g ?D)) (take ?G ?f ?D)",
    "cover.top (cover ?G ft)",
    "cover.hit (cover ?G ?g) (member ?g ?G)",
    "cover.absurd (cover ?G ?g) (member ff ?G)",
    "cover.clash (cover ?G ?g) (member (at0 ?n) ?G) (member (at1 ?n) ?G)",
    "cover.and-left (cover ?G ?g) (take ?G (fand ?a ?b) ?D) (cover (fc ?a (fc ?b ?D)) ?g)",
    "cover.or-left (cover ?G ?g) (take ?G (for ?a ?b) ?D) (cover (fc ?a ?D) ?g) (cover (fc ?b ?D) ?g)",
    "cover.and-right (cover ?G (fand ?a ?b)) (cover ?G ?a) (cover ?G ?b)",
    "cover.or-right0 (cover ?G (for ?a ?b)) (cover ?G ?a)",
    "cover.or-right1 (cover ?G (for ?a ?b)) (cover ?G ?b)",
    "entails.checked (entails ?d ?a ?b) (face ?d ?a) (face ?d ?b) (cover (fc ?a fnil) ?b)",
    "boundary.0 (boundary i0 ft ff)",
    "boundary.1 (boundary i1 ff ft)",
    "boundary.dim (boundary (dim ?n) (at0 ?n) (at1 ?n))",
    "boundary.neg (boundary (neg ?r) ?b ?a) (boundary ?r ?a ?b)",
    "boundary.meet (boundary (meet ?r ?s) (for ?a ?c) (fand ?b ?d)) (boundary ?r ?a ?b) (boundary ?s ?c ?d)",
    "boundary.join (boundary (join ?r ?s) (fand ?a ?c) (for ?b ?d)) (boundary ?r ?a ?b) (boundary ?s ?c ?d)",
    "local.0 (local ?d ?phi ?r i0) (interval ?d ?r) (boundary ?r ?a ?b) (entails ?d ?phi ?a)",
    "local.1 (local ?d ?phi ?r i1) (interval ?d ?r) (boundary ?r ?a ?b) (entails ?d ?phi ?b)",
    "fforall.ff (fforall ff ?k ff)",
    "fforall.ft (fforall ft ?k ft)",
    "fforall.0.hit (fforall (at0 ?k) ?k ff)",
    "fforall.0.lt (fforall (at0 ?n) ?k (at0 ?n)) (lt ?n ?k)",
    "fforall.0.gt (fforall (at0 (s ?n)) ?k (at0 ?n)) (lt ?k (s ?n))",
    "fforall.1.hit (fforall (at1 ?k) ?k ff)",
    "fforall.1.lt (fforall (at1 ?n) ?k (at1 ?n)) (lt ?n ?k)",
    "fforall.1.gt (fforall (at1 (s ?n)) ?k (at1 ?n)) (lt ?k (s ?n))",
    "fforall.and (fforall (fand ?a ?b) ?k (fand ?c ?d)) (fforall ?a ?k ?c) (fforall ?b ?k ?d)",
    "fforall.or (fforall (for ?a ?b) ?k (for ?c ?d)) (fforall ?a ?k ?c) (fforall ?b ?k ?d)",
    "ishift.0 (ishift i0 ?k i0)",
    "ishift.1 (ishift i1 ?k i1)",
    "ishift.dim.lt (ishift (dim ?n) ?k (dim ?n)) (lt ?n ?k)",
    "ishift.dim.ge (ishift (dim ?n) ?k (dim (s ?n))) (le ?k ?n)",
    "ishift.neg (ishift (neg ?r) ?k (neg ?s)) (ishift ?r ?k ?s)",
    "ishift.meet (ishift (meet ?p ?q) ?k (meet ?s ?t)) (ishift ?p ?k ?s) (ishift ?q ?k ?t)",
    "ishift.join (ishift (join ?p ?q) ?k (join ?s ?t)) (ishift ?p ?k ?s) (ishift ?q ?k ?t)",
    "isubst.0 (isubst i0 ?k ?r i0)",
    "isubst.1 (isubst i1 ?k ?r i1)",
    "isubst.dim.lt (isubst (dim ?n) ?k ?r (dim ?n)) (lt ?n ?k)",
    "isubst.dim.hit (isubst (dim ?k) ?k ?r ?r)",
    "isubst.dim.gt (isubst (dim (s ?n)) ?k ?r (dim ?n)) (lt ?k (s ?n))",
    "isubst.neg (isubst (neg ?p) ?k ?r (neg ?s)) (isubst ?p ?k ?r ?s)",
    "isubst.meet (isubst (meet ?p ?q) ?k ?r (meet ?s ?t)) (isubst ?p ?k ?r ?s) (isubst ?q ?k ?r ?t)",
    "isubst.join (isubst (join ?p ?q) ?k ?r (join ?s ?t)) (isubst ?p ?k ?r ?s) (isubst ?q ?k ?r ?t)",
    "fshift.ff (fshift ff ?k ff)",
    "fshift.ft (fshift ft ?k ft)",
    "fshift.0 (fshift (at0 ?n) ?k (at0 ?m)) (ishift (dim ?n) ?k (dim ?m))",
    "fshift.1 (fshift (at1 ?n) ?k (at1 ?m)) (ishift (dim ?n) ?k (dim ?m))",
    "fshift.and (fshift (fand ?a ?b) ?k (fand ?c ?d)) (fshift ?a ?k ?c) (fshift ?b ?k ?d)",
    "fshift.or (fshift (for ?a ?b) ?k (for ?c ?d)) (fshift ?a ?k ?c) (fshift ?b ?k ?d)",
    "fsubst.ff (fsubst ff ?k ?r ff)",
    "fsubst.ft (fsubst ft ?k ?r ft)",
    "fsubst.0 (fsubst (at0 ?n) ?k ?r ?a) (isubst (dim ?n) ?k ?r ?s) (boundary ?s ?a ?b)",
    "fsubst.1 (fsubst (at1 ?n) ?k ?r ?b) (isubst (dim ?n) ?k ?r ?s) (boundary ?s ?a ?b)",
    "fsubst.and (fsubst (fand ?a ?b) ?k ?r (fand ?c ?d)) (fsubst ?a ?k ?r ?c) (fsubst ?b ?k ?r ?d)",
    "fsubst.or (fsubst (for ?a ?b) ?k ?r (for ?c ?d)) (fsubst ?a ?k ?r ?c) (fsubst ?b ?k ?r ?d)",
];

/// Each predicate's operands in printed order: n a number, f a face,
/// i an interval, c a context, e one of i0 and i1.
pub const PREDICATES: [(&str, &str); 15] = [
    ("lt", "nn"),
    ("le", "nn"),
    ("interval", "ni"),
    ("face", "nf"),
    ("member", "fc"),
    ("take", "cfc"),
    ("cover", "cf"),
    ("entails", "nff"),
    ("boundary", "iff"),
    ("local", "nfie"),
    ("fforall", "fnf"),
    ("ishift", "ini"),
    ("isubst", "inii"),
    ("fshift", "fnf"),
    ("fsubst", "fnif"),
];

/// The rule's name by its kind, from 1.
pub fn name(kind: usize) -> &'static str {
    RULES[kind - 1].split(' ').next().unwrap()
}

/// The kind of a rule name; None for a rule that document 01 leaves out.
pub fn kind(rule: &str) -> Option<usize> {
    (1..=RULES.len()).find(|&k| name(k) == rule)
}

/// The predicate of a rule: its name before the first dot.
pub fn predicate(rule: &str) -> &str {
    rule.split('.').next().unwrap()
}

pub fn operands(predicate: &str) -> Option<&'static str> {
    PREDICATES.iter().find(|(p, _)| *p == predicate).map(|(_, o)| *o)
}
