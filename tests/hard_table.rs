// rustc --edition 2024 -O --out-dir target tests/hard_table.rs && target/hard_table tests/hard_table.hex
//
// Finds a legal table that is hard for check 18, in two minutes, writes its words to the file named, and prints how
// many pairs of nodes a read meets. Every record stands for the event of the last variable, by way of others: each pair
// implies, so that no fault ends the check early. The first 20 variables are choices. The search is a climb: one arc or
// one position is changed at a time, and the change is kept where no fewer pairs are met. The seed is fixed.
use std::{env, fs};

const SEED: u64 = 0x9E37_79B9_7F4A_7C15;
const STEPS: usize = 600_000;
const VARIABLES: u8 = 60;
const CHOICES: u8 = 20;
const LAST: u8 = VARIABLES - 1;
const NODES: usize = 256;
const CHOICE_RECORDS: usize = 60; // at the start of the climb
const SKIP: u8 = 6; // how far an arc goes at the start

struct Random(u64);

impl Random {
    fn below(&mut self, n: usize) -> usize {
        self.0 ^= self.0 << 13;
        self.0 ^= self.0 >> 7;
        self.0 ^= self.0 << 17;
        ((self.0 >> 32) as usize * n) >> 32
    }
}

/// By node: the position, and the children, lo and hi.
struct Table {
    position: [u8; NODES],
    lo: [u8; NODES],
    hi: [u8; NODES],
}

/// Nodes by falling position; each has children a few positions on.
fn start(r: &mut Random) -> Table {
    let mut at: Vec<u8> = (3..NODES)
        .map(|k| {
            if k < 3 + CHOICE_RECORDS {
                r.below(CHOICES as usize) as u8
            } else {
                CHOICES + r.below((LAST - CHOICES) as usize) as u8
            }
        })
        .collect();
    at.sort_by(|p, q| q.cmp(p));
    let mut t = Table { position: [VARIABLES; NODES], lo: [0; NODES], hi: [0; NODES] };
    (t.position[2], t.hi[2]) = (LAST, 1);
    for k in 3..NODES {
        let p = at[k - 3];
        let near: Vec<u8> =
            (2..k).filter(|&c| p < t.position[c] && t.position[c] <= p + SKIP).map(|c| c as u8).collect();
        let mut child = || if near.is_empty() { 2 } else { near[r.below(near.len())] };
        (t.position[k], t.hi[k], t.lo[k]) = (p, child(), child());
    }
    t
}

/// How many pairs a read meets, those left out that are known at once.
fn pairs_met(t: &Table) -> usize {
    let (mut met, mut count) = ([0u64; 4 * NODES], 0);
    let mut todo = Vec::with_capacity(128);
    let mut meet = |m: u8, n: u8, todo: &mut Vec<(u8, u8)>| {
        let (word, bit) = (m as usize * 4 + n as usize / 64, 1 << (n % 64));
        if m != 0 && n != 1 && m != n && met[word] & bit == 0 {
            met[word] |= bit;
            count += 1;
            todo.push((m, n));
        }
    };
    for k in (2..NODES).filter(|&k| t.position[k] < CHOICES) {
        meet(t.lo[k], t.hi[k], &mut todo);
        while let Some((m, n)) = todo.pop() {
            let (p, q) = (t.position[m as usize], t.position[n as usize]);
            for child in [&t.hi, &t.lo] {
                let next_m = if p <= q { child[m as usize] } else { m };
                let next_n = if q <= p { child[n as usize] } else { n };
                meet(next_m, next_n, &mut todo);
            }
        }
    }
    count
}

/// Whether node k's children are records before it at larger positions, and its parents stand at smaller ones.
fn is_legal(t: &Table, k: usize) -> bool {
    let p = t.position[k];
    let right = |c: u8| 2 <= c && (c as usize) < k && t.position[c as usize] > p;
    let is_child = |j: &usize| t.lo[*j] as usize == k || t.hi[*j] as usize == k;
    right(t.lo[k]) && right(t.hi[k]) && (k + 1..NODES).filter(is_child).all(|j| t.position[j] < p)
}

/// Changes an arc of node k, or in one of eight cases its position.
fn change(t: &mut Table, r: &mut Random, k: usize) {
    match r.below(16) {
        0 => t.position[k] = r.below(LAST as usize) as u8,
        1 => t.position[k] = (t.position[k] as usize + r.below(5)).saturating_sub(2) as u8,
        i if i % 2 == 0 => t.hi[k] = (2 + r.below(k - 2)) as u8,
        _ => t.lo[k] = (2 + r.below(k - 2)) as u8,
    }
}

/// The file's words: chances of 1 in 2 and 1 in 3 by turns, the last of 3 in 7.
fn words(t: &Table) -> Vec<u32> {
    let word = |kind: u32, p: usize, q: u32, r: u32| kind << 28 | (p as u32) << 22 | q << 11 | r;
    let mut words = vec![word(1, VARIABLES as usize, NODES as u32 - 2, 0)];
    for i in 0..VARIABLES {
        let (a, b) = if i == LAST { (3, 7) } else { (1, 2 + i as u32 % 2) };
        words.push(if i < CHOICES { word(2, i as usize, 0, 0) } else { word(3, i as usize, a, b) });
    }
    words.extend((2..NODES).map(|k| word(4, t.position[k] as usize, t.hi[k] as u32, t.lo[k] as u32)));
    words
}

fn main() {
    let path = env::args().nth(1).expect("the file to write");
    let mut r = Random(SEED);
    let mut t = start(&mut r);
    let mut most = pairs_met(&t);
    for _ in 0..STEPS {
        let k = 3 + r.below(NODES - 3);
        let was = (t.position[k], t.hi[k], t.lo[k]);
        change(&mut t, &mut r, k);
        let pairs = if is_legal(&t, k) { pairs_met(&t) } else { 0 };
        if pairs >= most {
            most = pairs;
        } else {
            (t.position[k], t.hi[k], t.lo[k]) = was;
        }
    }
    let lines: Vec<String> =
        words(&t).chunks(8).map(|c| c.iter().map(|w| format!("{w:08x}")).collect::<Vec<_>>().join(" ")).collect();
    fs::write(path, lines.join("\n") + "\n").expect("cannot write");
    println!("{most}");
}
