// The same walk in plain Rust, over the same two tables, with the same input and output as the program keys_bench.
use std::io::Read;

// 8 pairs of columns that fix each other: 256 keys.
const PAIRS: [u64; 34] = [
    16, 16, 0x0001, 0x0002, 0x0002, 0x0001, 0x0004, 0x0008, 0x0008, 0x0004, 0x0010, 0x0020,
    0x0020, 0x0010, 0x0040, 0x0080, 0x0080, 0x0040, 0x0100, 0x0200, 0x0200, 0x0100, 0x0400, 0x0800,
    0x0800, 0x0400, 0x1000, 0x2000, 0x2000, 0x1000, 0x4000, 0x8000, 0x8000, 0x4000,
];

// 32 sets of 8 columns, each of which fixes all: they are the keys.
const EIGHTS: [u64; 66] = [
    16, 32, 0x542f, 0xffff, 0x4e0f, 0xffff, 0x0a77, 0xffff, 0x8b47, 0xffff, 0x287b, 0xffff,
    0x3a33, 0xffff, 0x44bd, 0xffff, 0x583d, 0xffff, 0x1c5d, 0xffff, 0x9875, 0xffff, 0xa4d5, 0xffff,
    0x8795, 0xffff, 0xe685, 0xffff, 0x3e31, 0xffff, 0xb361, 0xffff, 0xdd21, 0xffff, 0x3476, 0xffff,
    0xc936, 0xffff, 0xac56, 0xffff, 0x8796, 0xffff, 0xf416, 0xffff, 0xe1c6, 0xffff, 0x0afa, 0xffff,
    0xe34a, 0xffff, 0xe1b2, 0xffff, 0x792c, 0xffff, 0xad4c, 0xffff, 0xe8b4, 0xffff, 0x2de4, 0xffff,
    0xa7b0, 0xffff, 0xeab0, 0xffff, 0xaf90, 0xffff,
];

#[derive(Clone, Copy)]
struct Rule {
    left: u16,
    right: u16,
}

fn closure(rules: &[Rule], start: u16) -> u16 {
    let mut all = start;
    loop {
        let mut next = all;
        for rule in rules {
            if rule.left & next == rule.left {
                next |= rule.right;
            }
        }
        if next == all {
            return all;
        }
        all = next;
    }
}

fn fixes(rules: &[Rule], left: u16, right: u16) -> bool {
    closure(rules, left) & right == right
}

fn is_needed(rules: &[Rule], set: u16, target: u16) -> bool {
    let mut rest = set;
    while rest != 0 {
        let lowest = rest & rest.wrapping_neg();
        rest ^= lowest;
        if fixes(rules, set & !lowest, target) {
            return false;
        }
    }
    true
}

fn walk(rules: &[Rule], target: u16, chosen: u16, free: u16, out: &mut [u64], count: usize) -> Option<usize> {
    if fixes(rules, chosen, target) {
        if !is_needed(rules, chosen, target) {
            return Some(count);
        }
        if count >= out.len() {
            return None;
        }
        out[count] = chosen as u64;
        return Some(count + 1);
    }
    if !fixes(rules, chosen | free, target) || free == 0 {
        return Some(count);
    }
    let lowest = free & free.wrapping_neg();
    let more = walk(rules, target, chosen | lowest, free ^ lowest, out, count)?;
    walk(rules, target, chosen, free ^ lowest, out, more)
}

fn list(lent: &[u64], row: &mut [u64]) -> u64 {
    let mut rules = [Rule { left: 0, right: 0 }; 32];
    let count = lent[1] as usize;
    for i in 0..count {
        rules[i] = Rule {
            left: lent[2 + 2 * i] as u16,
            right: lent[3 + 2 * i] as u16,
        };
    }
    walk(&rules[..count], 0xffff, 0, 0xffff, row, 0).map_or(0, |count| count as u64)
}

fn main() {
    let mut asked = Vec::new();
    std::io::stdin().read_to_end(&mut asked).unwrap();
    let mut listed = 0u64;
    let mut mix = 0u64;
    for table in &asked {
        let mut row = [0; 256];
        let count = match *table {
            b'p' => list(&PAIRS, &mut row),
            b'e' => list(&EIGHTS, &mut row),
            _ => 0,
        };
        listed = listed.wrapping_add(count);
        for key in &row {
            mix = mix.wrapping_mul(31) ^ *key;
        }
    }
    println!("{listed} keys, mixed to {mix}");
}
