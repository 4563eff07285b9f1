//! Every answer of the library beside that of the plain Rust: numbers, places, values and buffers, on accepted and
//! damaged files and on requests right and wrong.
use std::collections::BTreeMap;
use std::fmt::Debug;

use crate::jigbalo::{self, Refusal};
use crate::plain::{self, Form};
use crate::tables::{self, Draft, Random};

/// How often each service answered (0) or refused with a number.
pub type Counts = BTreeMap<&'static str, BTreeMap<u64, u64>>;

struct Request {
    file: Vec<u8>,
    plan: Vec<u8>,
    kits: u32,
    percent: u32,
    size: usize,
}

fn made(r: &mut Random) -> Request {
    let draft: Draft = match r.below(40) {
        0 => tables::layered(r),
        1 => tables::threshold(r.between(1, 16) as usize, r.between(1, 8) as usize, r.between(0, 5), 5),
        2..5 => tables::limits(r),
        5..9 => tables::small(r, false),
        _ => tables::small(r, true),
    };
    let draft = if r.one_in(2) { draft } else { draft.with_kits(r) };
    let draft = if r.one_in(2) { draft } else { draft.with_roots(r) };
    let own = draft.kits();
    let choices = own.len();
    let (few, many) = (choices <= 7, r.one_in(200));
    let mark = |r: &mut Random| {
        if few || many || r.one_in(3) { r.below(3) as u8 } else { r.between(1, 2) as u8 }
    };
    let mut plan: Vec<u8> = (0..choices).map(|_| mark(r)).collect();
    match r.below(24) {
        0 => plan.push(1),
        1 if choices > 0 => plan.truncate(r.below(choices as u64) as usize),
        2 if choices > 0 => plan[r.below(choices as u64) as usize] = r.between(2, 255) as u8,
        3..10 => plan.iter_mut().for_each(|m| *m = (*m).max(1)),
        _ => {}
    }
    let file = draft.file();
    let file = if r.one_in(3) { tables::damaged(r, file) } else { file };
    let size = if r.one_in(24) { r.below(22) as usize } else { choices };
    // what the plan and some of its open lines cost, or one beside it
    let mut cost = 0;
    for (&mark, kits) in plan.iter().zip(own) {
        cost += if mark == 1 || mark == 0 && r.one_in(2) { kits } else { 0 };
    }
    let kits = match r.below(24) {
        0 => [10_021, 10_022, 1 << 16, u32::MAX][r.below(4) as usize],
        1 => 10_020,
        2..8 => r.below(21) as u32,
        _ => (cost + r.below(3)).saturating_sub(1) as u32,
    };
    let percent = if r.one_in(24) { [101, 102, 1 << 16, u32::MAX][r.below(4) as usize] } else { r.below(101) as u32 };
    Request { file, plan, kits, percent, size }
}

/// Answers and buffers beside each other; the first difference ends the program.
fn same<A: Debug + PartialEq, B: Debug + PartialEq>(
    counts: &mut Counts,
    service: &'static str,
    q: &Request,
    library: (Result<A, Refusal>, Vec<B>),
    plain: (Result<A, Refusal>, Vec<B>),
    before: &[B],
) {
    let left = library.0.is_ok() || library.1 == before;
    if library != plain || !left {
        let file: String = q.file.iter().map(|x| format!("{x:02x}")).collect();
        println!("{service} differs: library {library:?}, plain Rust {plain:?}, buffer before {before:?}");
        println!("file {file} plan {:?} kits {} percent {}", q.plan, q.kits, q.percent);
        std::process::exit(1);
    }
    let number = library.0.err().map_or(0, |r| r.number);
    *counts.entry(service).or_default().entry(number).or_default() += 1;
}

fn with<A, B: Clone>(held: &[B], service: impl FnOnce(&mut [B]) -> A) -> (A, Vec<B>) {
    let mut buffer = held.to_vec();
    (service(&mut buffer), buffer)
}

/// Compares the five services on so many requests; the plain search in its four forms.
pub fn compare(seed: u64, requests: u64) -> Counts {
    let mut r = Random::new(seed);
    let mut counts = Counts::new();
    for _ in 0..requests {
        let q = made(&mut r);
        let (file, plan) = (&q.file[..], &q.plan[..]);
        let drops: Vec<u64> = (0..q.size).map(|_| r.next()).collect();
        let marks: Vec<u8> = (0..q.size).map(|_| r.next() as u8).collect();
        let none: [u8; 0] = [];
        same(&mut counts, "read", &q, (jigbalo::read(file), vec![]), (plain::read(file), vec![]), &none);
        same(&mut counts, "score", &q, (jigbalo::score(file, plan), vec![]), (plain::score(file, plan), vec![]), &none);
        let library = with(&drops, |b| jigbalo::sweep(file, plan, b));
        same(&mut counts, "sweep", &q, library, with(&drops, |b| plain::sweep(file, plan, b)), &drops);
        let library = with(&marks, |b| jigbalo::filter(file, plan, q.percent, b));
        same(&mut counts, "filter", &q, library, with(&marks, |b| plain::filter(file, plan, q.percent, b)), &marks);
        let library = with(&marks, |b| jigbalo::search(file, plan, q.kits, q.percent, b));
        for form in [Form::Layers, Form::Fetched, Form::Sweeps] {
            let other = with(&marks, |b| plain::search(form, file, plan, q.kits, q.percent, b));
            assert_eq!(library, other, "search, {form:?}");
        }
        let other = with(&marks, |b| plain::search(Form::PassUp, file, plan, q.kits, q.percent, b));
        same(&mut counts, "search", &q, library, other, &marks);
    }
    counts
}
