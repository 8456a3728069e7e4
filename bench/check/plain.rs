// The same tests of designs in plain Rust, over the same designs, with the same input and output as the program check_bench.
use std::io::Read;

#[derive(Clone, Copy)]
struct Rule {
    left: u16,
    right: u16,
}

struct Part {
    set: u16,
    own: Vec<Rule>,
}

struct Question {
    rules: Vec<Rule>,
    parts: Vec<Part>,
}

fn rule(left: u64, right: u64) -> Rule {
    Rule {
        left: left as u16,
        right: right as u16,
    }
}

// Column c fixes c + 1, and besides c + 5, around the circle.
fn circles() -> Vec<Rule> {
    let next = |by: u64| move |c: u64| rule(1 << c, 1 << ((c + by) % 16));
    (0..16).map(next(1)).chain((0..16).map(next(5))).collect()
}

// Two columns side by side fix a third, and so do two with one between them.
fn mixed() -> Vec<Rule> {
    let pair = |two: u64, by: u64| move |c: u64| rule(two << c, 1 << ((c + by) % 16));
    (0..16).map(pair(3, 7)).chain((0..16).map(pair(5, 3))).collect()
}

fn closure(rules: &[Rule], start: u16) -> u16 {
    let mut all = start;
    loop {
        let mut next = all;
        for rule in rules {
            if rule.left & next == rule.left {
                next |= rule.right;
            }
        }
        if next == all {
            return all;
        }
        all = next;
    }
}

fn columns(set: u16) -> impl Iterator<Item = usize> {
    let mut left = set;
    std::iter::from_fn(move || {
        let lowest = left.trailing_zeros() as usize;
        (left != 0).then(|| {
            left &= left - 1;
            lowest
        })
    })
}

fn inside(one: u16, other: u16) -> bool {
    one & other == one
}

fn fixes(rules: &[Rule], left: u16, right: u16) -> bool {
    inside(right, closure(rules, left))
}

// The first key of all columns that has the chosen ones and others of the free ones.
fn first_key(rules: &[Rule], chosen: u16, free: u16) -> Option<u16> {
    if fixes(rules, chosen, 0xffff) {
        let needed = columns(chosen).all(|c| !fixes(rules, chosen & !(1 << c), 0xffff));
        return needed.then_some(chosen);
    }
    if !fixes(rules, chosen | free, 0xffff) || free == 0 {
        return None;
    }
    let lowest = free & free.wrapping_neg();
    first_key(rules, chosen | lowest, free ^ lowest).or_else(|| first_key(rules, chosen, free ^ lowest))
}

// A table with the same design that the proved program makes for it: reduced rules, merged by left side, and a key where no part fixes all.
fn made(rules: Vec<Rule>) -> Question {
    let mut cover: Vec<Rule> = Vec::new();
    for rule in &rules {
        for c in columns(rule.right) {
            let mut left = rule.left;
            for d in columns(rule.left) {
                if fixes(&rules, left & !(1 << d), 1 << c) {
                    left &= !(1 << d);
                }
            }
            cover.push(Rule { left, right: 1 << c });
        }
    }
    let mut first = 0;
    while first < cover.len() {
        let rule = cover.remove(first);
        if !fixes(&cover, rule.left, rule.right) {
            cover.insert(first, rule);
            first += 1;
        }
    }
    let mut sets: Vec<u16> = Vec::new();
    let add = |sets: &mut Vec<u16>, set: u16| {
        if !sets.iter().any(|other| inside(set, *other)) {
            sets.retain(|other| !inside(*other, set));
            sets.push(set);
        }
    };
    for rule in &cover {
        let same = cover.iter().filter(|other| other.left == rule.left);
        add(&mut sets, same.fold(rule.left, |all, other| all | other.right));
    }
    if !sets.iter().any(|set| fixes(&rules, *set, 0xffff)) {
        add(&mut sets, first_key(&rules, 0, 0xffff).unwrap());
    }
    let mut rest = cover;
    let mut parts = Vec::new();
    for set in sets {
        let (own, left) = rest.into_iter().partition(|rule| inside(rule.left | rule.right, set));
        rest = left;
        parts.push(Part { set, own });
    }
    Question { rules, parts }
}

const FIRST: u16 = 0x000f;
const SECOND: u16 = 0x00f0;
const THIRD: u16 = 0x0f00;
const LAST: u16 = 0xf000;

fn block(left: u16, block: u16) -> impl Iterator<Item = Rule> {
    columns(block).map(move |c| Rule { left, right: 1 << c })
}

// Five parts that own the rules, and others of eight columns.
fn eights(count: usize) -> Question {
    let part = |key: u16, other: u16| Part {
        set: key | other,
        own: block(key, other).collect(),
    };
    let mut parts = vec![
        part(FIRST, SECOND),
        part(FIRST, THIRD),
        part(LAST, SECOND),
        part(LAST, THIRD),
        Part {
            set: FIRST | LAST,
            own: block(FIRST, LAST).chain(block(LAST, FIRST)).collect(),
        },
    ];
    let owners: Vec<u16> = parts.iter().map(|part| part.set).collect();
    let others = (0..=0xffffu16).filter(|set| set.count_ones() == 8 && !owners.contains(set));
    parts.extend(others.skip(24).step_by(25).take(count - 5).map(|set| Part { set, own: Vec::new() }));
    let rules = block(FIRST, SECOND | THIRD | LAST).chain(block(LAST, FIRST | SECOND | THIRD));
    Question {
        rules: rules.collect(),
        parts,
    }
}

fn none_inside(parts: &[Part]) -> bool {
    parts.iter().enumerate().all(|(i, part)| {
        let apart = |other: &Part| !inside(part.set, other.set) && !inside(other.set, part.set);
        parts[i + 1..].iter().all(apart)
    })
}

fn agree(one: &[u64; 16], two: &[u64; 16], set: u16) -> bool {
    columns(set).all(|c| one[c] == two[c])
}

fn merge(rows: &mut [[u64; 16]], c: usize, a: u64, b: u64) {
    for row in rows {
        if row[c] == a.max(b) {
            row[c] = a.min(b);
        }
    }
}

fn sweep(rows: &mut [[u64; 16]], rules: &[Rule]) -> bool {
    let mut changed = false;
    for rule in rules {
        for one in 0..rows.len() {
            for two in one + 1..rows.len() {
                if !agree(&rows[one], &rows[two], rule.left) {
                    continue;
                }
                for c in columns(rule.right) {
                    let (a, b) = (rows[one][c], rows[two][c]);
                    if a != b {
                        merge(rows, c, a, b);
                        changed = true;
                    }
                }
            }
        }
    }
    changed
}

// The chase.
fn lossless(question: &Question) -> bool {
    let mut rows = Vec::with_capacity(question.parts.len());
    for (i, part) in question.parts.iter().enumerate() {
        let mut row = [i as u64 + 1; 16];
        for c in columns(part.set) {
            row[c] = 0;
        }
        rows.push(row);
    }
    while sweep(&mut rows, &question.rules) {}
    rows.contains(&[0; 16])
}

fn keeps_rules(question: &Question) -> bool {
    let own: Vec<Rule> = question.parts.iter().flat_map(|part| part.own.iter().copied()).collect();
    question.parts.iter().all(|part| {
        let stands = |rule: &Rule| inside(rule.left | rule.right, part.set) && inside(rule.right, closure(&question.rules, rule.left));
        part.own.iter().all(stands)
    }) && question.rules.iter().all(|rule| inside(rule.right, closure(&own, rule.left)))
}

// All sets inside the part: which are superkeys, and which columns of the part the others fix.
fn third_form(rules: &[Rule], part: u16) -> bool {
    let (mut with, mut without, mut loose) = ([0u32; 16], [0u32; 16], 0);
    let mut set = part;
    loop {
        let fixed = closure(rules, set);
        if inside(part, fixed) {
            for c in columns(part) {
                if set >> c & 1 == 1 {
                    with[c] += 1;
                } else {
                    without[c] += 1;
                }
            }
        } else {
            loose |= fixed & part & !set;
        }
        if set == 0 {
            return columns(loose).all(|c| with[c] > without[c]);
        }
        set = (set - 1) & part;
    }
}

// 0 for a design, else the number and the place of the refusal in one.
fn verdict(question: &Question) -> u64 {
    let all = question.parts.iter().fold(0, |all, part| all | part.set);
    if all != 0xffff {
        return 601;
    }
    if !none_inside(&question.parts) {
        return 602;
    }
    if !lossless(question) {
        return 603;
    }
    if !keeps_rules(question) {
        return 604;
    }
    if !question.parts.iter().all(|part| third_form(&question.rules, part.set)) {
        return 605;
    }
    0
}

fn main() {
    let mut asked = Vec::new();
    std::io::stdin().read_to_end(&mut asked).unwrap();
    let all = [made(circles()), made(mixed()), eights(60), eights(125), eights(250), eights(500)];
    let (mut designs, mut mix) = (0u64, 0u64);
    for letter in &asked {
        let place = match *letter {
            b'c' => 0,
            b'm' => 1,
            b'1' => 2,
            b'2' => 3,
            b'3' => 4,
            _ => 5,
        };
        let told = verdict(&all[place]);
        designs += (told == 0) as u64;
        mix = mix.wrapping_mul(31).wrapping_add(told).wrapping_add(*letter as u64);
    }
    println!("{designs} are designs, mixed to {mix}");
}
