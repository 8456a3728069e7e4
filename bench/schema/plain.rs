// The same synthesis in plain Rust, over the same two tables, with the same input and output as the program schema_bench.
use std::io::Read;

// Column c fixes c + 1, and besides c + 5, around the circle.
const CIRCLES: [u64; 66] = [
    16, 32, 0x0001, 0x0002, 0x0002, 0x0004, 0x0004, 0x0008, 0x0008, 0x0010, 0x0010, 0x0020,
    0x0020, 0x0040, 0x0040, 0x0080, 0x0080, 0x0100, 0x0100, 0x0200, 0x0200, 0x0400, 0x0400, 0x0800,
    0x0800, 0x1000, 0x1000, 0x2000, 0x2000, 0x4000, 0x4000, 0x8000, 0x8000, 0x0001, 0x0001, 0x0020,
    0x0002, 0x0040, 0x0004, 0x0080, 0x0008, 0x0100, 0x0010, 0x0200, 0x0020, 0x0400, 0x0040, 0x0800,
    0x0080, 0x1000, 0x0100, 0x2000, 0x0200, 0x4000, 0x0400, 0x8000, 0x0800, 0x0001, 0x1000, 0x0002,
    0x2000, 0x0004, 0x4000, 0x0008, 0x8000, 0x0010,
];

// Two columns side by side fix a third, and so do two with one between them.
const MIXED: [u64; 66] = [
    16, 32, 0x0003, 0x0080, 0x0006, 0x0100, 0x000c, 0x0200, 0x0018, 0x0400, 0x0030, 0x0800,
    0x0060, 0x1000, 0x00c0, 0x2000, 0x0180, 0x4000, 0x0300, 0x8000, 0x0600, 0x0001, 0x0c00, 0x0002,
    0x1800, 0x0004, 0x3000, 0x0008, 0x6000, 0x0010, 0xc000, 0x0020, 0x8000, 0x0040, 0x0005, 0x0008,
    0x000a, 0x0010, 0x0014, 0x0020, 0x0028, 0x0040, 0x0050, 0x0080, 0x00a0, 0x0100, 0x0140, 0x0200,
    0x0280, 0x0400, 0x0500, 0x0800, 0x0a00, 0x1000, 0x1400, 0x2000, 0x2800, 0x4000, 0x5000, 0x8000,
    0xa000, 0x0001, 0x4000, 0x0002, 0x8000, 0x0004,
];

#[derive(Clone, Copy)]
struct Rule {
    left: u16,
    right: u16,
}

fn closure(rules: &[Rule], start: u16) -> u16 {
    let mut all = start;
    loop {
        let mut next = all;
        for rule in rules {
            if rule.left & next == rule.left {
                next |= rule.right;
            }
        }
        if next == all {
            return all;
        }
        all = next;
    }
}

fn fixes(rules: &[Rule], left: u16, right: u16) -> bool {
    closure(rules, left) & right == right
}

// The columns of a set, from the lowest, each as a set.
fn columns(set: u16) -> impl Iterator<Item = u16> {
    (0..16).map(|c| 1 << c).filter(move |c| set & c != 0)
}

// Fine rules first, then those that follow from the others are left out, front to end.
fn least_cover(rules: &[Rule]) -> Vec<Rule> {
    let mut work = Vec::with_capacity(1024);
    for rule in rules {
        for right in columns(rule.right) {
            let mut left = rule.left;
            for c in columns(rule.left) {
                if fixes(rules, left & !c, right) {
                    left &= !c;
                }
            }
            work.push(Rule { left, right });
        }
    }
    for first in 0..work.len() {
        let rule = work[first];
        if !fixes(&work[first + 1..], rule.left, rule.right) {
            work.push(rule);
        }
    }
    work.split_off(work.len() - kept(&work, rules))
}

// How many rules were kept: those behind the fine ones.
fn kept(work: &[Rule], rules: &[Rule]) -> usize {
    let fine: u32 = rules.iter().map(|rule| rule.right.count_ones()).sum();
    work.len() - fine as usize
}

fn is_needed(rules: &[Rule], set: u16, target: u16) -> bool {
    columns(set).all(|c| !fixes(rules, set & !c, target))
}

fn first_key(rules: &[Rule], target: u16, chosen: u16, free: u16) -> Option<u16> {
    if fixes(rules, chosen, target) {
        return is_needed(rules, chosen, target).then_some(chosen);
    }
    if !fixes(rules, chosen | free, target) || free == 0 {
        return None;
    }
    let lowest = free & free.wrapping_neg();
    first_key(rules, target, chosen | lowest, free ^ lowest)
        .or_else(|| first_key(rules, target, chosen, free ^ lowest))
}

fn add(sets: &mut Vec<u16>, set: u16) {
    if sets.iter().any(|other| set & other == set) {
        return;
    }
    sets.retain(|other| other & set != *other);
    sets.push(set);
}

fn make(lent: &[u64], row: &mut [u64]) -> u64 {
    let rules: Vec<Rule> = lent[2..]
        .chunks(2)
        .map(|sets| Rule {
            left: sets[0] as u16,
            right: sets[1] as u16,
        })
        .collect();
    let mut rest = least_cover(&rules);
    let mut sets = Vec::with_capacity(513);
    for rule in &rest {
        let mut all = rule.left;
        for other in &rest {
            if other.left == rule.left {
                all |= other.right;
            }
        }
        add(&mut sets, all);
    }
    if !sets.iter().any(|set| fixes(&rules, *set, 0xffff)) {
        add(&mut sets, first_key(&rules, 0xffff, 0, 0xffff).unwrap());
    }
    row[0] = sets.len() as u64;
    let mut at = 1;
    for set in &sets {
        let lies = |rule: &Rule| (rule.left | rule.right) & set == rule.left | rule.right;
        let mut end = at + 2;
        for rule in rest.iter().filter(|rule| lies(rule)) {
            row[end] = rule.left as u64;
            row[end + 1] = rule.right as u64;
            end += 2;
        }
        row[at] = *set as u64;
        row[at + 1] = ((end - at) / 2 - 1) as u64;
        rest.retain(|rule| !lies(rule));
        at = end;
    }
    sets.len() as u64
}

fn main() {
    let mut asked = Vec::new();
    std::io::stdin().read_to_end(&mut asked).unwrap();
    let mut parts = 0u64;
    let mut mix = 0u64;
    for table in &asked {
        let mut row = [0; 2100];
        let count = match *table {
            b'c' => make(&CIRCLES, &mut row),
            b'm' => make(&MIXED, &mut row),
            _ => 0,
        };
        parts = parts.wrapping_add(count);
        for number in row.iter().take(200) {
            mix = mix.wrapping_mul(31) ^ *number;
        }
    }
    println!("{parts} parts, mixed to {mix}");
}
