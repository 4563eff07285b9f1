//! The printer's decimal numbers: every text, which has to be that of plain Rust, then the time of a number.
use std::hint::black_box;
use std::io::Write;

use crate::tables::Random;
use crate::timing::processor_time;

/// A text as the crate writing has it, of which the first `count` bytes are written.
#[repr(C)]
struct Text {
    bytes: [u8; 1024],
    count: usize,
}

/// `put_number` of the crate that `run.sh` makes over writing. It asks for 20 places.
type PutNumber = unsafe extern "C" fn(&mut Text, u64);

unsafe extern "C" {
    fn library_number(text: &mut Text, n: u64);
    #[cfg(before)]
    fn before_number(text: &mut Text, n: u64);
}

extern "C" fn plain_number(text: &mut Text, n: u64) {
    let mut left = &mut text.bytes[text.count..];
    let before = left.len();
    write!(left, "{n}").unwrap();
    text.count += before - left.len();
}

const PROGRAMS: &[PutNumber] = &[
    library_number,
    #[cfg(before)]
    before_number,
    plain_number,
];

fn put(program: PutNumber, text: &mut Text, n: u64) {
    assert!(text.count + 20 <= text.bytes.len());
    unsafe { program(text, n) }
}

/// The powers of ten and of two with their neighbours, and made numbers of every length.
fn numbers() -> Vec<u64> {
    let powers = (0..20).map(|k| 10u64.pow(k)).chain((0..64).map(|k| 1 << k));
    let mut numbers: Vec<u64> = powers.flat_map(|x| [x - 1, x, x + 1]).chain([u64::MAX - 1, u64::MAX]).collect();
    let mut random = Random::new(1);
    numbers.extend((0..1_000_000).map(|i| random.next() >> (i % 64)));
    numbers
}

/// Each text of each program at its place, with all other bytes as they were. How many numbers were written.
pub fn compare() -> usize {
    let numbers = numbers();
    for &n in &numbers {
        let (at, digits) = (n as usize % 5, n.to_string());
        let mut expected = [b'#'; 1024];
        expected[at..at + digits.len()].copy_from_slice(digits.as_bytes());
        for &program in PROGRAMS {
            let mut text = Text { bytes: [b'#'; 1024], count: at };
            put(program, &mut text, n);
            assert_eq!(text.count, at + digits.len());
            assert_eq!(text.bytes, expected);
        }
    }
    numbers.len()
}

/// Nanoseconds of a number for each program: the least of 200 rounds, in each of which every program has its turn of 10,000.
fn times(n: u64) -> [f64; PROGRAMS.len()] {
    let mut least = [f64::INFINITY; PROGRAMS.len()];
    let mut text = Text { bytes: [0; 1024], count: 0 };
    for _ in 0..200 {
        for (least, &program) in least.iter_mut().zip(PROGRAMS) {
            let start = processor_time();
            for _ in 0..10_000 {
                text.count = 3;
                put(program, black_box(&mut text), black_box(n));
            }
            *least = least.min((processor_time() - start).as_nanos() as f64 / 10_000.0);
        }
    }
    least
}

/// A line for each number. A ratio is the library's time over the time before it.
pub fn table() {
    println!("a number printed, ns  | library{}  plain ratio", if cfg!(before) { " before ratio" } else { "" });
    for n in [0, 9, 10, 1 << 56, u64::MAX] {
        let times = times(n);
        print!("{n:>21} | {:>7.1}", times[0]);
        for theirs in &times[1..] {
            print!(" {theirs:>6.1} {:>5.2}", times[0] / theirs);
        }
        println!();
    }
}
