// Writes a day of the organs' register for the programs to keep: deeds ROWS DEEDS > DAY. Four bytes for ROWS, low byte first; the
// rules; ROWS rows put in; then DEEDS more, of which three in ten take a row out, three put one in, and four are refused, so that
// the number of rows stays level. The mix is the same at each run.
use std::io::Write;

struct Day {
    tuners: u64,
    held: Vec<u64>,
    absent: Vec<u64>,
    state: u64,
    out: Vec<u8>,
}

impl Day {
    // A number below the limit.
    fn pick(&mut self, limit: usize) -> usize {
        self.state = self.state.wrapping_mul(6364136223846793005).wrapping_add(1442695040888963407);
        ((self.state >> 33) % limit as u64) as usize
    }

    // The row of this number: organ, parish, diocese, builder, tuner, day. On each day every tuner has one organ.
    fn row(&self, k: u64) -> [u64; 6] {
        let (day, tuner) = (k / self.tuners, k % self.tuners);
        let organ = (tuner + day) % self.tuners;
        [organ, organ / 4, organ / 16, organ % 3, tuner, day]
    }

    fn deed(&mut self, kind: u8, row: [u64; 6]) {
        self.out.push(kind);
        for cell in row {
            self.out.extend_from_slice(&(cell as u32).to_le_bytes());
        }
    }

    fn put_in(&mut self) {
        let i = self.pick(self.absent.len());
        let k = self.absent.swap_remove(i);
        self.deed(0, self.row(k));
        self.held.push(k);
    }

    fn take_out(&mut self) {
        let i = self.pick(self.held.len());
        let k = self.held.swap_remove(i);
        self.deed(1, self.row(k));
        self.absent.push(k);
    }

    // A held row with another cell in one column.
    fn broken(&mut self, column: usize) {
        let i = self.pick(self.held.len());
        let mut row = self.row(self.held[i]);
        row[column] += 1_000_000;
        self.deed(0, row);
    }
}

fn main() {
    let number = |i: usize| std::env::args().nth(i).and_then(|a| a.parse::<u64>().ok()).expect("usage: deeds ROWS DEEDS");
    let (rows, deeds) = (number(1), number(2));
    let mut day = Day { tuners: (rows / 8).max(8), held: Vec::new(), absent: (0..2 * rows).collect(), state: 1, out: Vec::new() };
    day.out.extend_from_slice(&(rows as u32).to_le_bytes());
    day.out.extend_from_slice(&[6, 4, 1, 0, 10, 0, 2, 0, 4, 0, 48, 0, 1, 0, 33, 0, 16, 0]);
    for _ in 0..rows {
        day.put_in();
    }
    for e in 0..deeds {
        match e % 10 {
            0 | 3 | 7 => day.take_out(),
            1 | 4 | 8 => day.put_in(),
            2 => {
                let i = day.pick(day.held.len());
                let row = day.row(day.held[i]);
                day.deed(0, row);
            }
            6 => {
                let i = day.pick(day.absent.len());
                let row = day.row(day.absent[i]);
                day.deed(1, row);
            }
            5 => day.broken(if e % 20 == 5 { 1 } else { 2 }),
            _ => day.broken(4),
        }
    }
    std::io::stdout().write_all(&day.out).expect("write");
}
