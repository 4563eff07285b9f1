//! Safe functions over the static library of the crate `export_c`, whose functions ask nothing of a caller but what slices
//! and exclusive references are.

/// Why a request is turned away: the number and place of documents 01 and 02.
#[derive(Clone, Copy, Debug, PartialEq, Eq)]
pub struct Refusal {
    pub number: u64,
    pub place: u64,
}

/// V, N, the number of choices and B of a table.
#[derive(Clone, Copy, Debug, PartialEq, Eq)]
pub struct Reading {
    pub variables: u64,
    pub records: u64,
    pub choices: u64,
    pub scale: u64,
}

/// The score of the plan that a search writes, and its visits.
#[derive(Clone, Copy, Debug, PartialEq, Eq)]
pub struct Finding {
    pub score: u64,
    pub visits: u64,
}

unsafe extern "C" {
    fn jigbalo_read(
        file: *const u8,
        file_length: usize,
        place: *mut u64,
        variables: *mut u64,
        records: *mut u64,
        choices: *mut u64,
        scale: *mut u64,
    ) -> u64;
    fn jigbalo_score(
        file: *const u8,
        file_length: usize,
        plan: *const u8,
        plan_length: usize,
        place: *mut u64,
        score: *mut u64,
    ) -> u64;
    fn jigbalo_sweep(
        file: *const u8,
        file_length: usize,
        plan: *const u8,
        plan_length: usize,
        drops: *mut u64,
        drops_length: usize,
        place: *mut u64,
        top: *mut u64,
    ) -> u64;
    fn jigbalo_filter(
        file: *const u8,
        file_length: usize,
        plan: *const u8,
        plan_length: usize,
        percent: u32,
        out: *mut u8,
        out_length: usize,
        place: *mut u64,
        forced: *mut u64,
    ) -> u64;
    fn jigbalo_search(
        file: *const u8,
        file_length: usize,
        plan: *const u8,
        plan_length: usize,
        kits: u32,
        percent: u32,
        out: *mut u8,
        out_length: usize,
        place: *mut u64,
        score: *mut u64,
        visits: *mut u64,
    ) -> u64;
}

fn answer<A>(number: u64, place: u64, value: A) -> Result<A, Refusal> {
    if number == 0 { Ok(value) } else { Err(Refusal { number, place }) }
}

/// V, N, the number of choices and B of a table.
pub fn read(file: &[u8]) -> Result<Reading, Refusal> {
    let (mut place, mut variables, mut records, mut choices, mut scale) = (0, 0, 0, 0, 0);
    let number = unsafe {
        jigbalo_read(file.as_ptr(), file.len(), &mut place, &mut variables, &mut records, &mut choices, &mut scale)
    };
    answer(number, place, Reading { variables, records, choices, scale })
}

/// The score of a full plan.
pub fn score(file: &[u8], plan: &[u8]) -> Result<u64, Refusal> {
    let (mut place, mut score) = (0, 0);
    let number = unsafe { jigbalo_score(file.as_ptr(), file.len(), plan.as_ptr(), plan.len(), &mut place, &mut score) };
    answer(number, place, score)
}

/// The top of a plan; the drop of each choice is written to `drops`.
pub fn sweep(file: &[u8], plan: &[u8], drops: &mut [u64]) -> Result<u64, Refusal> {
    let (mut place, mut top) = (0, 0);
    let number = unsafe {
        jigbalo_sweep(
            file.as_ptr(),
            file.len(),
            plan.as_ptr(),
            plan.len(),
            drops.as_mut_ptr(),
            drops.len(),
            &mut place,
            &mut top,
        )
    };
    answer(number, place, top)
}

/// How many lines the percentage forces; the plan with these taken is written to `out`.
pub fn filter(file: &[u8], plan: &[u8], percent: u32, out: &mut [u8]) -> Result<u64, Refusal> {
    let (mut place, mut forced) = (0, 0);
    let number = unsafe {
        jigbalo_filter(
            file.as_ptr(),
            file.len(),
            plan.as_ptr(),
            plan.len(),
            percent,
            out.as_mut_ptr(),
            out.len(),
            &mut place,
            &mut forced,
        )
    };
    answer(number, place, forced)
}

/// The score of the first candidate and the visits; the candidate is written to `out`.
pub fn search(file: &[u8], plan: &[u8], kits: u32, percent: u32, out: &mut [u8]) -> Result<Finding, Refusal> {
    let (mut place, mut score, mut visits) = (0, 0, 0);
    let number = unsafe {
        jigbalo_search(
            file.as_ptr(),
            file.len(),
            plan.as_ptr(),
            plan.len(),
            kits,
            percent,
            out.as_mut_ptr(),
            out.len(),
            &mut place,
            &mut score,
            &mut visits,
        )
    };
    answer(number, place, Finding { score, visits })
}
