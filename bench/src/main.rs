//! Forecasts and verdicts of the proved library beside plain safe Rust, on the same input in one run.

mod plain;

use plain::{Compare, Contract, Fault, Floor, Smallest, Switch};
use std::hint::black_box;
use std::time::Instant;

// Nothing compares these with crates/speed: a slice passes as a pointer and then a length.
extern "C" {
    fn guldoper_forecast(cap: u64, memory: u64, allowance: u64, floor: u64, level: u64, slots: u64, list: *mut u32, len: usize) -> u32;
    fn guldoper_margin(cap: u64, memory: u64, allowance: u64, floor: u64, record: *const u32, len: usize) -> i32;
}

/// The numbers of a floor over a switch.
#[derive(Clone, Copy)]
struct Terms {
    cap: u64,
    memory: u64,
    allowance: u64,
    floor: u64,
}

impl Terms {
    fn agree(self) -> Result<Floor<Switch>, Fault> {
        Floor::new(Switch::new(self.cap, self.memory, self.allowance)?, self.floor)
    }
}

fn proved_forecast(t: Terms, level: u64, slots: u64, list: &mut [u32]) -> u32 {
    // Safe: the call asks nothing of its arguments, and the slice is lent for as long as it runs.
    unsafe { guldoper_forecast(t.cap, t.memory, t.allowance, t.floor, level, slots, list.as_mut_ptr(), list.len()) }
}

fn proved_margin(t: Terms, record: &[u32]) -> i32 {
    // Safe, as above.
    unsafe { guldoper_margin(t.cap, t.memory, t.allowance, t.floor, record.as_ptr(), record.len()) }
}

#[inline(always)]
fn plan(t: Terms, level: u64, slots: u64, list: &mut [u32], compare: Compare) -> Result<u32, Fault> {
    let mut contract = t.agree()?;
    contract.grant(level)?;
    plain::forecast(&contract, slots, list, compare)
}

#[inline(never)]
fn plain_forecast(t: Terms, level: u64, slots: u64, list: &mut [u32]) -> u32 {
    plan(t, level, slots, list, Compare::Unsigned).unwrap_or(0)
}

#[inline(never)]
fn signed_forecast(t: Terms, level: u64, slots: u64, list: &mut [u32]) -> u32 {
    plan(t, level, slots, list, Compare::Signed).unwrap_or(0)
}

#[inline(always)]
fn margin(t: Terms, record: &[u32], smallest: Smallest) -> i32 {
    let audit = || plain::verdict(&t.agree()?, record, smallest);
    audit().ok().flatten().map_or(0, |tightest| tightest.margin)
}

#[inline(never)]
fn plain_margin(t: Terms, record: &[u32]) -> i32 {
    margin(t, record, Smallest::Min)
}

#[inline(never)]
fn folded_margin(t: Terms, record: &[u32]) -> i32 {
    margin(t, record, Smallest::Fold)
}

/// Numbers that look random and are the same in every run.
struct Noise(u64);

impl Noise {
    fn below(&mut self, limit: u64) -> u64 {
        self.0 = self.0.wrapping_mul(6_364_136_223_846_793_005).wrapping_add(1_442_695_040_888_963_407);
        (self.0 >> 33) % limit
    }
}

/// All give the same energy, list and least margin, on many contracts and lists; one in some is refused.
fn compare_answers(noise: &mut Noise) {
    for round in 0..20_000 {
        let cap = 1 + noise.below(if round % 2 == 0 { 30 } else { 20_001 });
        let memory = 1 + noise.below(97);
        let t = Terms { cap, memory, allowance: noise.below(memory * cap + 2), floor: noise.below(cap / 3 + 2) };
        let (level, slots) = (cap - noise.below(cap / 2 + 1), noise.below(195));
        let mut ours: Vec<u32> = (0..slots as u32 + noise.below(20) as u32).skip(noise.below(9) as usize / 8).collect();
        let mut theirs = ours.clone();
        let mut others = ours.clone();
        let energy = proved_forecast(t, level, slots, &mut ours);
        assert_eq!(energy, plain_forecast(t, level, slots, &mut theirs));
        assert_eq!(energy, signed_forecast(t, level, slots, &mut others));
        assert_eq!((&ours, &ours), (&theirs, &others));
        let above = u64::from(round % 8 == 0);
        let record: Vec<u32> = (0..noise.below(300)).map(|_| (cap + above - noise.below(cap / 2 + 1)) as u32).collect();
        compare_margins(t, &record);
    }
    for length in 65_530..65_540 {
        compare_margins(Terms { cap: 100, memory: 4, allowance: 100, floor: 20 }, &vec![80; length]);
    }
}

fn compare_margins(t: Terms, record: &[u32]) {
    let margin = proved_margin(t, record);
    assert_eq!(margin, plain_margin(t, record));
    assert_eq!(margin, folded_margin(t, record));
}

/// The shortest of many runs, in seconds: what other work on the machine adds is left out.
fn shortest(runs: &[f64]) -> f64 {
    runs.iter().copied().fold(f64::MAX, f64::min)
}

/// Runs the calls in turn, so that a slow stretch of the machine meets them alike; gives the shortest time of each.
fn race(rounds: usize, calls: &mut [&mut dyn FnMut()]) -> Vec<f64> {
    let mut times = vec![Vec::with_capacity(rounds); calls.len()];
    for _ in 0..rounds {
        for (call, times) in calls.iter_mut().zip(&mut times) {
            let start = Instant::now();
            call();
            times.push(start.elapsed().as_secs_f64());
        }
    }
    times.iter().map(|runs| shortest(runs)).collect()
}

fn report(what: &str, proved: f64, rust: f64) {
    println!("{what}: proved {:.2} us, Rust {:.2} us, ratio {:.2}", proved * 1e6, rust * 1e6, proved / rust);
}

fn main() {
    let mut noise = Noise(1);
    compare_answers(&mut noise);
    println!("20,000 contracts and lists: the same energies, lists and least margins");

    let t = Terms { cap: 20_000, memory: 96, allowance: 400_000, floor: 2_000 };
    let record: Vec<u32> = (0..65_535).map(|_| 12_000 + noise.below(8_001) as u32).collect();
    let times = race(
        200,
        &mut [
            &mut || { black_box(proved_margin(black_box(t), black_box(&record))); },
            &mut || { black_box(plain_margin(black_box(t), black_box(&record))); },
            &mut || { black_box(folded_margin(black_box(t), black_box(&record))); },
        ],
    );
    report("verdict on 65,535 levels, memory 96", times[0], times[1]);
    report("the same, Rust that reads as it wrote", times[0], times[2]);

    let mut list = [0; 192];
    let mut spare = [0; 192];
    let mut third = [0; 192];
    let times = race(
        20_000,
        &mut [
            &mut || { black_box(proved_forecast(black_box(t), black_box(2_500), 192, &mut list)); },
            &mut || { black_box(plain_forecast(black_box(t), black_box(2_500), 192, &mut spare)); },
            &mut || { black_box(signed_forecast(black_box(t), black_box(2_500), 192, &mut third)); },
        ],
    );
    report("forecast of 192 slots, memory 96", times[0], times[1]);
    report("the same, Rust with signed compares", times[0], times[2]);
}
