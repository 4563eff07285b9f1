//! What the five services answer for table A of document 01, with kits 1 and percent 50; the filter has percent 60.
mod jigbalo;

/// (line 0 and event 1) or (line 1 and event 3), events 1/2 and 6/10
const TABLE: [u32; 9] =
    [0x11002000, 0x20000000, 0x30400802, 0x20800000, 0x30C0300A, 0x40C00800, 0x40801000, 0x40400803, 0x40002003];

fn show<A>(service: &str, answer: Result<A, jigbalo::Refusal>, text: impl Fn(A) -> String) {
    match answer {
        Ok(a) => println!("{service}: {}", text(a)),
        Err(r) => println!("{service}: refused {} at {}", r.number, r.place),
    }
}

fn main() {
    let table: Vec<u8> = TABLE.iter().flat_map(|w| w.to_be_bytes()).collect();
    let open = [0, 0];
    show("read", jigbalo::read(&table), |t| {
        format!("variables {} records {} choices {} scale {}", t.variables, t.records, t.choices, t.scale)
    });
    let mut drops = [0; 2];
    show("sweep", jigbalo::sweep(&table, &open, &mut drops), |top| {
        format!("top {top} drops {} {}", drops[0], drops[1])
    });
    let mut plan = [0; 2];
    show("filter", jigbalo::filter(&table, &open, 60, &mut plan), |n| {
        format!("forced {n} plan {} {}", plan[0], plan[1])
    });
    show("search", jigbalo::search(&table, &open, 1, 50, &mut plan), |f| {
        format!("score {} visits {} plan {} {}", f.score, f.visits, plan[0], plan[1])
    });
    show("score", jigbalo::score(&table, &plan), |x| x.to_string());
    // an open plan has no score
    show("score", jigbalo::score(&table, &open), |x| x.to_string());
}
