//! The proved library beside plain Rust, in one run: first every answer, which has to be the same, then the times.
mod compare;
mod digits;
#[path = "../examples/jigbalo.rs"]
mod jigbalo;
/// The libraries at their places: `run.sh` writes this file.
#[path = "../target/bench/placed.rs"]
mod placed;
mod plain;
mod tables;
mod timing;

fn main() {
    let requests = std::env::args().nth(1).map_or(200_000, |n| n.parse().expect("a number of requests"));
    let counts = compare::compare(1, requests);
    println!("{requests} requests to each service, all answers the same; by number, 0 for answered:");
    for (service, counts) in counts {
        let each: Vec<String> = counts.iter().map(|(number, n)| format!("{number}: {n}")).collect();
        println!("  {service:<6} {}", each.join(", "));
    }
    println!("{} numbers printed, all texts the same", digits::compare());
    println!();
    timing::table();
    println!();
    digits::table();
}
