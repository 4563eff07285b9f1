//! The time of a read, of a sweep and of a search per visit, the library beside the plain Rust.
use std::hint::black_box;
use std::time::Duration;

use crate::jigbalo::{Finding, Refusal};
use crate::placed::{BEFORE, LIBRARY};
use crate::plain::{self, Form};
use crate::tables::{self, Draft, Random};

const OPEN: [u8; 20] = [0; 20];

/// A table with 20 choices and some root words or none, to be searched from the fully open plan.
struct Job {
    name: &'static str,
    draft: Draft,
    kits: u32,
    visits: u64,
}

fn visits(file: &[u8], kits: u32) -> u64 {
    plain::search(Form::Layers, file, &OPEN, kits, 0, &mut [0; 20]).map_or(0, |f| f.visits)
}

/// Whether so many visits are about as many as wanted, a fifth more or less.
fn about(visits: u64, wanted: u64) -> bool {
    (wanted * 8..=wanted * 12).contains(&(visits * 10))
}

fn threshold(needed: usize, kits: u32, roots: usize) -> Job {
    let draft = tables::threshold(20, needed, 3, 5).with_spread_roots(roots);
    let visits = visits(&draft.file(), kits);
    Job { name: "threshold", draft, kits, visits }
}

/// The first made network of which the roots lead to 200 records and that is searched in about so many visits.
fn layered(wanted: u64, roots: usize) -> Job {
    let drafts = (1..).map(|seed| tables::layered(&mut Random::new(seed)).with_spread_roots(roots));
    let mut drafts = drafts.filter(|draft| draft.reached() >= 200);
    let job = drafts.find_map(|draft| {
        let file = draft.file();
        let (kits, visits) = (3..=20).map(|kits| (kits, visits(&file, kits))).find(|x| about(x.1, wanted))?;
        Some(Job { name: "layered", draft, kits, visits })
    });
    job.unwrap()
}

/// The processor time of this thread, so that what else the machine does counts little.
pub fn processor_time() -> Duration {
    #[repr(C)]
    struct Timespec {
        seconds: i64,
        nanoseconds: i64,
    }
    unsafe extern "C" {
        fn clock_gettime(clock: i32, time: *mut Timespec) -> i32;
    }
    const CLOCK_THREAD_CPUTIME_ID: i32 = 3;
    let mut t = Timespec { seconds: 0, nanoseconds: 0 };
    assert_eq!(unsafe { clock_gettime(CLOCK_THREAD_CPUTIME_ID, &mut t) }, 0);
    Duration::new(t.seconds as u64, t.nanoseconds as u32)
}

/// Calls `run` some frames of 256 bytes deeper in the stack.
#[inline(never)]
fn deeper(frames: usize, run: &mut dyn FnMut()) {
    let frame = black_box([0u8; 256]);
    if frames == 0 {
        run();
    } else {
        deeper(frames - 1, run);
    }
    black_box(&frame);
}

/// A library at some place of the binary. `run.sh` has each of them at four, 16 bytes apart, since a time hangs on where in a line
/// of 64 bytes a loop stands.
pub struct Placed {
    pub read: fn(&[u8]) -> bool,
    pub sweep: fn(&[u8], &[u8], &mut [u64]) -> bool,
    pub search: fn(&[u8], &[u8], u32, u32, &mut [u8]) -> Result<Finding, Refusal>,
}

/// Whose read, sweep or search it is: the library's or the earlier one's, at one of its places, or that of plain Rust.
#[derive(Clone, Copy, PartialEq, Eq)]
enum Program {
    Library(usize),
    Before(usize),
    Plain(Form),
}

impl Program {
    fn placed(self) -> Option<&'static Placed> {
        match self {
            Program::Library(i) => Some(&LIBRARY[i]),
            Program::Before(i) => Some(&BEFORE[i]),
            Program::Plain(_) => None,
        }
    }

    /// Whether the times of two programs are of one column.
    fn is_with(self, other: Program) -> bool {
        match (self, other) {
            (Program::Library(_), Program::Library(_)) | (Program::Before(_), Program::Before(_)) => true,
            (x, y) => x == y,
        }
    }

    /// A library from before paper 3 refuses root words, and takes no part in the jobs that have some.
    fn takes_part(self, file: &[u8]) -> bool {
        matches!(self, Program::Library(_)) || read(self, file)
    }
}

/// The libraries, and plain Rust in some forms.
fn programs(forms: &[Form]) -> Vec<Program> {
    let libraries = (0..LIBRARY.len()).map(Program::Library).chain((0..BEFORE.len()).map(Program::Before));
    libraries.chain(forms.iter().map(|&form| Program::Plain(form))).collect()
}

/// Nanoseconds of `run` for each column: for each program that takes part the least of several rounds, in each of which every
/// program has its turn of so many calls, and of a library the mean over its places. The rounds are at 16 depths of the stack,
/// since a time hangs on where in their pages the arrays of a call stand.
fn times(rounds: usize, calls: u32, programs: &[Program], file: &[u8], mut run: impl FnMut(Program)) -> Vec<f64> {
    let mut least = vec![f64::INFINITY; programs.len()];
    let part: Vec<bool> = programs.iter().map(|program| program.takes_part(file)).collect();
    for round in 0..rounds {
        for (i, least) in least.iter_mut().enumerate().filter(|&(i, _)| part[i]) {
            deeper(round % 16, &mut || {
                let start = processor_time();
                for _ in 0..calls {
                    run(programs[i]);
                }
                *least = least.min((processor_time() - start).as_nanos() as f64 / calls as f64);
            });
        }
    }
    let both: Vec<(Program, f64)> = programs.iter().copied().zip(least).collect();
    both.chunk_by(|a, b| a.0.is_with(b.0)).map(|c| c.iter().map(|x| x.1).sum::<f64>() / c.len() as f64).collect()
}

fn read(program: Program, file: &[u8]) -> bool {
    match program.placed() {
        Some(library) => black_box((library.read)(file)),
        None => black_box(plain::read(file)).is_ok(),
    }
}

fn sweep(program: Program, file: &[u8], drops: &mut [u64]) -> bool {
    match program.placed() {
        Some(library) => black_box((library.sweep)(file, &OPEN, drops)),
        None => black_box(plain::sweep(file, &OPEN, drops)).is_ok(),
    }
}

fn search(program: Program, file: &[u8], kits: u32) -> (Result<Finding, Refusal>, [u8; 20]) {
    let mut plan = [0; 20];
    let answer = match program {
        Program::Plain(form) => plain::search(form, file, &OPEN, kits, 0, &mut plan),
        _ => (program.placed().unwrap().search)(file, &OPEN, kits, 0, &mut plan),
    };
    (answer, plan)
}

fn line(job: &Job) {
    let file = &job.draft.file()[..];
    let sweepers = programs(&[Form::Sweeps]);
    let searchers = programs(&[Form::PassUp, Form::Layers, Form::Fetched, Form::Sweeps]);
    let mut answers = searchers.iter().filter(|program| program.takes_part(file)).map(|&p| search(p, file, job.kits));
    let first = answers.next().unwrap();
    assert!(first.0.is_ok_and(|found| found.visits == job.visits));
    answers.for_each(|other| assert_eq!(first, other));

    let reads = times(800, 50, &sweepers, file, |p| assert!(read(p, black_box(file))));
    let mut drops = [0; 20];
    let sweeps = times(800, 50, &sweepers, file, |p| assert!(sweep(p, black_box(file), &mut drops)));
    let rounds = (4_000_000 / job.visits as usize).clamp(16, 1000);
    let calls = (1000 / job.visits as u32).max(1);
    let mut visit = times(rounds, calls, &searchers, file, |p| {
        black_box(search(p, black_box(file), job.kits)).0.ok();
    });
    visit.iter_mut().for_each(|x| *x /= job.visits as f64);

    let (records, roots) = (job.draft.records.len(), job.draft.roots.len());
    print!("{:<9} {records:>7} {roots:>5} {:>4} {:>7}", job.name, job.kits, job.visits);
    for times in [reads, sweeps] {
        print!(" | {:>7.1}", times[0] / 1e3);
        for &theirs in &times[1..] {
            print!(" {} {}", figure(theirs / 1e3, 6, 1), figure(times[0] / theirs, 5, 2));
        }
    }
    print!(" | {:>7.1}", visit[0]);
    for &theirs in &visit[1..] {
        print!(" {} {}", figure(theirs, 7, 1), figure(visit[0] / theirs, 5, 2));
    }
    println!();
}

/// A number, or a line where a program takes no part.
fn figure(x: f64, width: usize, digits: usize) -> String {
    if x.is_finite() && x > 0.0 { format!("{x:>width$.digits$}") } else { format!("{:>width$}", "-") }
}

/// A line for each job. A ratio is the library's time over the time before it.
pub fn table() {
    let before = if BEFORE.is_empty() { "" } else { " before ratio" };
    let width = 20 + before.len();
    println!("{:<36} | {:<width$} | {:<width$} | search, ns a visit", "", "read, µs", "sweep, µs");
    println!(
        "job       records roots kits  visits | library{before}  plain ratio | library{before}  plain ratio | library\
         {} pass up ratio    sent ratio fetched ratio  sweeps ratio",
        if BEFORE.is_empty() { "" } else { "  before ratio" }
    );
    for (needed, kits, roots) in [(10, 3, 0), (10, 5, 0), (8, 9, 0), (10, 5, 2), (10, 5, 16)] {
        line(&threshold(needed, kits, roots));
    }
    for (wanted, roots) in [(40, 0), (40, 16), (10_000, 0), (100_000, 0), (1_000_000, 0), (100_000, 2), (100_000, 16)] {
        line(&layered(wanted, roots));
    }
}
