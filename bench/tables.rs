//! Made tables: small ones of every kind, ones at the limits, damaged ones, and monotone networks with 20 choices, any of them with root words. The seed
//! decides everything.

/// Numbers that look random, by splitmix64.
pub struct Random(u64);

impl Random {
    pub fn new(seed: u64) -> Random {
        Random(seed)
    }

    pub fn next(&mut self) -> u64 {
        self.0 = self.0.wrapping_add(0x9e3779b97f4a7c15);
        let z = (self.0 ^ self.0 >> 30).wrapping_mul(0xbf58476d1ce4e5b9);
        let z = (z ^ z >> 27).wrapping_mul(0x94d049bb133111eb);
        z ^ z >> 31
    }

    /// A number from 0 to n - 1.
    pub fn below(&mut self, n: u64) -> u64 {
        self.next() % n
    }

    /// A number from a to b, both included.
    pub fn between(&mut self, a: u64, b: u64) -> u64 {
        a + self.below(b - a + 1)
    }

    /// Whether something that is so once in n times is so.
    pub fn one_in(&mut self, n: u64) -> bool {
        self.below(n) == 0
    }
}

/// A choice with its kits, or a chance with a and b.
#[derive(Clone, Copy)]
pub enum Variable {
    Choice(u64),
    Chance(u64, u64),
}

/// A table in the making: variables by position, records by number as position, hi and lo, and root words as reward and
/// node.
pub struct Draft {
    pub variables: Vec<Variable>,
    pub records: Vec<(usize, usize, usize)>,
    pub roots: Vec<(usize, usize)>,
}

fn word(kind: usize, p: usize, q: usize, r: usize) -> u32 {
    (kind << 28 | (p & 0x3f) << 22 | (q & 0x7ff) << 11 | (r & 0x7ff)) as u32
}

impl Draft {
    pub fn file(&self) -> Vec<u8> {
        let heading = word(1, self.variables.len(), self.records.len(), self.roots.len());
        let variables = self.variables.iter().enumerate().map(|(i, v)| match *v {
            Variable::Choice(kits) => word(2, i, 0, kits as usize - 1),
            Variable::Chance(a, b) => word(3, i, a as usize, b as usize),
        });
        let records = self.records.iter().map(|&(p, high, low)| word(4, p, high, low));
        let roots = self.roots.iter().map(|&(reward, node)| word(6, 0, reward, node));
        std::iter::once(heading).chain(variables).chain(records).chain(roots).flat_map(|w| w.to_be_bytes()).collect()
    }

    /// The kits of each line.
    pub fn kits(&self) -> Vec<u64> {
        let kits = |v: &Variable| match *v {
            Variable::Choice(kits) => Some(kits),
            _ => None,
        };
        self.variables.iter().filter_map(kits).collect()
    }

    /// The table with other kits: few, many, or both, now and then one too many for a line.
    pub fn with_kits(mut self, r: &mut Random) -> Draft {
        let most = [3, 6, 501][r.below(3) as usize];
        for v in &mut self.variables {
            if let Variable::Choice(kits) = v {
                *kits = match r.below(300) {
                    0 => 502,
                    1..30 => r.between(499, 501),
                    _ => r.between(1, most),
                };
            }
        }
        self
    }

    /// The table with root words, mostly few: of small rewards or any, or of as much as B leaves or one more, with more
    /// events where that is too much; now and then one is wrong, or one too many.
    pub fn with_roots(mut self, r: &mut Random) -> Draft {
        let n = self.records.len();
        if n == 0 {
            return self;
        }
        let node = |r: &mut Random| if r.one_in(4) { n + 1 } else { r.between(2, n as u64 + 1) as usize };
        if r.one_in(4) {
            let mut fits = self.variables.iter().fold(1 << 56, |fits, v| match *v {
                Variable::Chance(_, b) => fits / b,
                _ => fits,
            });
            while fits > 1024 && self.variables.len() < 60 {
                let b = r.between(2, 1000.min(fits));
                self.variables.push(Variable::Chance(r.between(0, b), b));
                fits /= b;
            }
            let total = (fits + r.below(2)).clamp(1, 1024) as usize;
            self.roots = (0..total).step_by(64).map(|i| (64.min(total - i), node(r))).collect();
        } else {
            let count = if r.one_in(6) { r.between(1, 17) } else { r.between(1, 4) };
            let most = [1, 4, 64][r.below(3) as usize];
            self.roots = (0..count).map(|_| (r.between(1, most) as usize, node(r))).collect();
        }
        if r.one_in(16) {
            let i = r.below(self.roots.len() as u64) as usize;
            match r.below(4) {
                0 => self.roots[i].0 = [0, 65, 128, 2047][r.below(4) as usize],
                1 => self.roots[i].1 = r.below(2) as usize,
                2 => self.roots[i].1 = n + 2,
                _ => self.roots[i].1 = 2047,
            }
        }
        self
    }

    /// The table with so many root words, spread over its records from the last one on, with rewards from 1 to 16.
    pub fn with_spread_roots(mut self, count: usize) -> Draft {
        let n = self.records.len();
        self.roots = (0..count).map(|i| (1 + 5 * i % 16, n + 1 - i * n / count)).collect();
        self
    }

    /// How many records the roots lead to.
    pub fn reached(&self) -> usize {
        let mut reached = vec![false; self.records.len() + 2];
        reached[self.records.len() + 1] = self.roots.is_empty();
        self.roots.iter().for_each(|&(_, node)| reached[node] = true);
        for (k, &(_, high, low)) in self.records.iter().enumerate().rev() {
            if reached[k + 2] {
                reached[high] = true;
                reached[low] = true;
            }
        }
        reached[2..].iter().filter(|&&x| x).count()
    }

    fn position(&self, node: usize) -> usize {
        if node < 2 { self.variables.len() } else { self.records[node - 2].0 }
    }
}

/// A small table of up to 7 variables, whose records stand in any legal order. Where `monotone`, its choice records are
/// so, by the sets of assignments that lead to true, 128 bits a node.
pub fn small(r: &mut Random, monotone: bool) -> Draft {
    let v = r.between(1, 7) as usize;
    let share = |r: &mut Random| {
        let b = if r.one_in(8) { r.between(1, 1000) } else { r.between(1, 12) };
        Variable::Chance(r.between(0, b), b)
    };
    let variables = (0..v).map(|_| if r.one_in(2) { Variable::Choice(1) } else { share(r) }).collect();
    let mut draft = Draft { variables, records: Vec::new(), roots: Vec::new() };
    let mut truths = vec![0u128, u128::MAX];
    let n = if r.one_in(6) { r.between(1, 60) } else { r.between(1, 14) };
    for k in 0..n {
        // mostly upwards, so that there is something below
        let p = match r.below(4) {
            0 => r.below(v as u64) as usize,
            _ => (v as u64 - 1 - (k * v as u64 / n).min(v as u64 - 1)) as usize,
        };
        let below: Vec<usize> = (0..k as usize + 2).filter(|&m| draft.position(m) > p).collect();
        let pick = |r: &mut Random| below[r.below(below.len() as u64) as usize];
        let (mut high, mut low) = (pick(r), pick(r));
        if monotone && matches!(draft.variables[p], Variable::Choice(_)) && truths[low] & !truths[high] != 0 {
            (high, low) = (low, high);
            if truths[low] & !truths[high] != 0 {
                if r.one_in(2) { high = 1 } else { low = 0 }
            }
        }
        let holds = (0..128).filter(|x| x >> p & 1 == 1).fold(0u128, |set, x| set | 1 << x);
        truths.push(holds & truths[high] | !holds & truths[low]);
        draft.records.push((p, high, low));
    }
    draft
}

/// A table at the limits: many variables, many choices and large shares, of which some are too many or too large.
pub fn limits(r: &mut Random) -> Draft {
    let v = r.between(40, 62) as usize;
    let (choices, largest) = (r.between(0, 36), [2, 3, 4, 10, 1000][r.below(5) as usize]);
    let mut variables: Vec<Variable> = (0..v)
        .map(|_| {
            let most = largest + r.below(2);
            let b = r.between(1, most);
            Variable::Chance(r.between(0, b), b)
        })
        .collect();
    for _ in 0..choices {
        variables[r.below(v as u64) as usize] = Variable::Choice(1);
    }
    let mut draft = Draft { variables, records: Vec::new(), roots: Vec::new() };
    let n = r.between(200, 255) as usize;
    for k in 0..n {
        let p = v - 1 - k * v / n;
        let below: Vec<usize> =
            (0..k + 2).filter(|&m| draft.position(m) > p && draft.position(m) <= p + 6 || m < 2).collect();
        let pick = |r: &mut Random| below[r.below(below.len() as u64) as usize];
        let (high, low) = (pick(r), pick(r));
        // an end as one child is monotone whatever the other is
        let record = match draft.variables[p] {
            Variable::Choice(_) if r.one_in(200) => (p, high, low),
            Variable::Choice(_) if r.one_in(2) => (p, 1, low),
            Variable::Choice(_) => (p, high, 0),
            _ => (p, high, low),
        };
        draft.records.push(record);
    }
    draft
}

/// A file with one thing changed.
pub fn damaged(r: &mut Random, mut file: Vec<u8>) -> Vec<u8> {
    let n = file.len() as u64;
    match r.below(9) {
        0 => file[r.below(n) as usize] ^= 1 << r.below(8),
        1 => file[r.below(n) as usize] = r.next() as u8,
        2 => file.truncate(r.below(n + 1) as usize),
        3 => file.truncate(4 * r.below(n / 4 + 1) as usize),
        4 => file.extend((0..r.between(1, 8)).map(|x| x as u8)),
        5 => file = (0..r.below(1364)).map(|_| r.next() as u8).collect(),
        6 => {
            // another number in a field of a word
            let at = 4 * r.below(n / 4) as usize;
            let (shift, wide) = [(28, 4), (22, 6), (11, 11), (0, 11)][r.below(4) as usize];
            let w = u32::from_be_bytes(file[at..at + 4].try_into().unwrap());
            let near = if r.one_in(2) {
                r.next() as u32
            } else {
                (w >> shift).wrapping_add(r.below(5) as u32).wrapping_sub(2)
            };
            let mask = ((1u32 << wide) - 1) << shift;
            file[at..at + 4].copy_from_slice(&(w & !mask | near << shift & mask).to_be_bytes());
        }
        7 => {
            // two words exchanged
            let (a, b) = (4 * r.below(n / 4) as usize, 4 * r.below(n / 4) as usize);
            for i in 0..4 {
                file.swap(a + i, b + i);
            }
        }
        _ => {
            // the last word again
            let last = file[file.len() - 4..].to_vec();
            file.extend(last);
        }
    }
    file
}

/// At least `needed` of `lines` lines stand. A line that is reinforced stands; another stands with share a of b. There are
/// two records for each line and each count of lines that matters.
pub fn threshold(lines: usize, needed: usize, a: u64, b: u64) -> Draft {
    let variables =
        (0..2 * lines).map(|p| if p % 2 == 0 { Variable::Choice(1) } else { Variable::Chance(a, b) }).collect();
    let mut draft = Draft { variables, records: Vec::new(), roots: Vec::new() };
    // the nodes by count, of the line below
    let mut below: Vec<usize> = (0..=lines).map(|count| (count >= needed) as usize).collect();
    for i in (0..lines).rev() {
        let mut nodes = below.clone();
        for count in 0..=i {
            let (stands, fails) = (below[count + 1], below[count]);
            nodes[count] = if stands == fails {
                stands
            } else {
                draft.records.push((2 * i + 1, stands, fails));
                draft.records.push((2 * i, stands, draft.records.len() + 1));
                draft.records.len() + 1
            };
        }
        below = nodes;
    }
    draft
}

/// A layered network: 20 choices and 20 chances in some order, and for each a layer of nodes, of which each implies the
/// next. That stays so from layer to layer, and every choice record is monotone: a node's lo does not stand after its hi in
/// the layer below, and neither falls from node to node.
pub fn layered(r: &mut Random) -> Draft {
    let (lines, width) = (20, 6);
    let mut variables: Vec<Variable> = (0..2 * lines)
        .map(|p| {
            let b = r.between(2, 6);
            if p % 2 == 0 { Variable::Choice(1) } else { Variable::Chance(r.between(1, b - 1), b) }
        })
        .collect();
    for p in 0..2 * lines {
        // lines and events change places with a neighbour
        if p > 0 && r.one_in(4) {
            variables.swap(p, p - 1);
        }
    }
    let mut draft = Draft { variables, records: Vec::new(), roots: Vec::new() };
    let mut chain = vec![0, 1];
    for p in (0..2 * lines).rev() {
        let (wide, last) = (width.min(p as u64 + 1), chain.len() as u64 - 1);
        let mut next = Vec::new();
        let (mut low, mut high) = (0, 0);
        for j in 0..wide {
            // about the node above which this one stands, one down and one up
            let middle = (2 * j + 1) * (last + 1) / (2 * wide);
            low = low.max(middle.saturating_sub(r.below(3).min(1)));
            high = high.max((middle + r.below(3).min(1)).min(last));
            draft.records.push((p, chain[high as usize], chain[low as usize]));
            next.push(draft.records.len() + 1);
        }
        if r.one_in(12) && wide == width {
            // the ends are nodes of the chain too
            next[0] = 0;
            next[wide as usize - 1] = 1;
        }
        chain = next;
    }
    draft
}
