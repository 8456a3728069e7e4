// One table with all rules, each tested against every row: what a register without parts does.
use std::io::Read;

// Organs and tuners: the left and the right columns of each rule.
const RULES: [(&[usize], &[usize]); 4] = [(&[0], &[1, 3]), (&[1], &[2]), (&[4, 5], &[0]), (&[0, 5], &[4])];

type Row = [u64; 6];

fn agree(columns: &[usize], a: &Row, b: &Row) -> bool {
    columns.iter().all(|&c| a[c] == b[c])
}

fn breaks(a: &Row, b: &Row) -> bool {
    RULES.iter().any(|(left, right)| agree(left, a, b) && !agree(right, a, b))
}

fn main() {
    let mut bytes = Vec::new();
    std::io::stdin().read_to_end(&mut bytes).expect("read");
    let (mut table, mut done, mut refused) = (Vec::<Row>::new(), 0, 0);
    for deed in bytes[22..].chunks_exact(25) {
        let mut row = [0; 6];
        for (cell, four) in row.iter_mut().zip(deed[1..].chunks_exact(4)) {
            *cell = u32::from_le_bytes(four.try_into().unwrap()) as u64;
        }
        let place = table.iter().position(|r| *r == row);
        let taken = match (deed[0], place) {
            (0, None) if !table.iter().any(|r| breaks(&row, r)) => {
                table.push(row);
                true
            }
            (1, Some(i)) => {
                table.remove(i);
                true
            }
            _ => false,
        };
        if taken {
            done += 1;
        } else {
            refused += 1;
        }
    }
    println!("{done} done, {refused} refused");
}
