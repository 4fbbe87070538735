//! The same contracts, forecasts and verdicts in plain safe Rust, with the same algorithms.

const MEMORY_MOST: usize = 96;
const CAP_MOST: u64 = 20_000;
const LEVELS_MOST: usize = 65_535;
const SLOTS_MOST: u64 = 192;

#[derive(Clone, Copy, Debug, PartialEq, Eq)]
pub enum Fault {
    Cap,
    Memory,
    Allowance,
    Floor,
    NotNew,
    AboveCap,
    RecordAboveCap(u64),
    BelowLowest(u32),
    TooFar,
    TooLong,
}

pub trait Contract {
    fn cap(&self) -> u32;
    fn memory(&self) -> u32;
    fn need(&self, length: u32) -> u32;
    fn back(&self, slots: u32) -> u32;
    fn grant(&mut self, level: u64) -> Result<(), Fault>;

    fn lowest(&self) -> u32 {
        let mut owed = 0;
        let mut recent = 0;
        for k in 1..=self.memory() {
            owed = owed.max(self.need(k).saturating_sub(recent));
            recent += self.back(k);
        }
        owed.min(self.cap())
    }

    fn admit(&self, level: u64) -> Result<u32, Fault> {
        if level > self.cap() as u64 {
            return Err(Fault::AboveCap);
        }
        let lowest = self.lowest();
        if (level as u32) < lowest {
            return Err(Fault::BelowLowest(lowest));
        }
        Ok(level as u32)
    }
}

pub struct Switch {
    cap: u32,
    memory: u32,
    allowance: u32,
    levels: [u32; MEMORY_MOST],
    newest: usize,
}

impl Switch {
    pub fn new(cap: u64, memory: u64, allowance: u64) -> Result<Switch, Fault> {
        if !(1..=CAP_MOST).contains(&cap) {
            return Err(Fault::Cap);
        }
        if !(1..=MEMORY_MOST as u64).contains(&memory) {
            return Err(Fault::Memory);
        }
        if allowance > memory * cap {
            return Err(Fault::Allowance);
        }
        Ok(Switch {
            cap: cap as u32,
            memory: memory as u32,
            allowance: allowance as u32,
            levels: [cap as u32; MEMORY_MOST],
            newest: 0,
        })
    }
}

impl Contract for Switch {
    fn cap(&self) -> u32 {
        self.cap
    }

    fn memory(&self) -> u32 {
        self.memory
    }

    fn need(&self, length: u32) -> u32 {
        if length == 0 || length > self.memory {
            return 0;
        }
        (length * self.cap).saturating_sub(self.allowance)
    }

    fn back(&self, slots: u32) -> u32 {
        if slots == 0 || slots >= self.memory {
            return 0;
        }
        let at = self.newest + slots as usize - 1;
        self.levels[if at < MEMORY_MOST { at } else { at - MEMORY_MOST }]
    }

    fn grant(&mut self, level: u64) -> Result<(), Fault> {
        let level = self.admit(level)?;
        self.newest = if self.newest == 0 { MEMORY_MOST - 1 } else { self.newest - 1 };
        self.levels[self.newest] = level;
        Ok(())
    }
}

pub struct Floor<C> {
    below: C,
    floor: u32,
}

impl<C: Contract> Floor<C> {
    pub fn new(below: C, floor: u64) -> Result<Floor<C>, Fault> {
        if floor > below.cap() as u64 {
            return Err(Fault::Floor);
        }
        if (1..below.memory()).any(|slots| below.back(slots) < below.cap()) {
            return Err(Fault::NotNew);
        }
        Ok(Floor { below, floor: floor as u32 })
    }
}

impl<C: Contract> Contract for Floor<C> {
    fn cap(&self) -> u32 {
        self.below.cap()
    }

    fn memory(&self) -> u32 {
        self.below.memory()
    }

    fn need(&self, length: u32) -> u32 {
        if length > self.below.memory() {
            return 0;
        }
        self.below.need(length).max(length * self.floor)
    }

    fn back(&self, slots: u32) -> u32 {
        self.below.back(slots)
    }

    fn grant(&mut self, level: u64) -> Result<(), Fault> {
        self.admit(level)?;
        self.below.grant(level)
    }
}

fn needs_of<C: Contract>(contract: &C) -> [u32; MEMORY_MOST] {
    let mut needs = [0; MEMORY_MOST];
    for (need, length) in needs.iter_mut().zip(1..=contract.memory()) {
        *need = contract.need(length);
    }
    needs
}

/// One slot on: every window is the level and the window before that is a slot shorter.
fn slide(sums: &mut [u32], level: u32) {
    let mut before = 0;
    for sum in sums {
        let old = *sum;
        *sum = level + before;
        before = old;
    }
}

/// How `lowest` compares: as unsigned numbers, as one would write it, or as signed ones, as the proved library does.
#[derive(Clone, Copy)]
pub enum Compare {
    Unsigned,
    Signed,
}

#[inline(always)]
fn lowest(cap: u32, needs: &[u32], sums: &[u32], compare: Compare) -> u32 {
    match compare {
        Compare::Unsigned => {
            let mut owed = needs[0];
            for (need, sum) in needs[1..].iter().zip(sums) {
                owed = owed.max(need.saturating_sub(*sum));
            }
            owed.min(cap)
        }
        Compare::Signed => {
            let mut owed = needs[0] as i32;
            for (need, sum) in needs[1..].iter().zip(sums) {
                owed = owed.max(*need as i32 - *sum as i32);
            }
            (owed as u32).min(cap)
        }
    }
}

#[inline(always)]
pub fn forecast<C: Contract>(contract: &C, slots: u64, list: &mut [u32], compare: Compare) -> Result<u32, Fault> {
    if slots > SLOTS_MOST || slots > list.len() as u64 {
        return Err(Fault::TooFar);
    }
    let memory = contract.memory() as usize;
    let needs = needs_of(contract);
    let needs = &needs[..memory];
    let mut sums = [0; MEMORY_MOST];
    let mut recent = 0;
    for (sum, slots) in sums.iter_mut().zip(1..contract.memory()) {
        recent += contract.back(slots);
        *sum = recent;
    }
    let sums = &mut sums[..memory];
    let mut energy = 0;
    for place in &mut list[..slots as usize] {
        let level = lowest(contract.cap(), needs, sums, compare);
        slide(sums, level);
        *place = level;
        energy += level;
    }
    Ok(energy)
}

#[derive(Clone, Copy, Debug, PartialEq, Eq)]
pub struct Tightest {
    pub margin: i32,
    pub end: u32,
    pub length: u32,
}

fn margins<'a>(needs: &'a [u32], sums: &'a [u32]) -> impl Iterator<Item = i32> + 'a {
    sums.iter().zip(needs).map(|(sum, need)| *sum as i32 - *need as i32)
}

/// How the least margin is taken: by `min`, as one would write it, which begins its pass at the second length; or by a
/// fold that begins at the first, as the proved library does.
#[derive(Clone, Copy)]
pub enum Smallest {
    Min,
    Fold,
}

#[inline(always)]
pub fn verdict<C: Contract>(contract: &C, record: &[u32], smallest: Smallest) -> Result<Option<Tightest>, Fault> {
    let cap = contract.cap();
    if let Some(i) = record.iter().position(|level| *level > cap) {
        return Err(Fault::RecordAboveCap(i as u64 + 1));
    }
    if record.len() > LEVELS_MOST {
        return Err(Fault::TooLong);
    }
    let memory = contract.memory() as usize;
    let needs = needs_of(contract);
    let needs = &needs[..memory];
    let mut sums = [0; MEMORY_MOST];
    for (sum, length) in sums.iter_mut().zip(1..) {
        *sum = length * cap;
    }
    let sums = &mut sums[..memory];
    let mut tightest: Option<Tightest> = None;
    for (i, level) in record.iter().enumerate() {
        slide(sums, *level);
        let margin = match smallest {
            Smallest::Min => margins(needs, sums).min().unwrap_or(0),
            Smallest::Fold => margins(needs, sums).fold(i32::MAX, i32::min),
        };
        if tightest.is_some_and(|t| t.margin <= margin) {
            continue;
        }
        let length = margins(needs, sums).position(|m| m <= margin).unwrap_or(0);
        tightest = Some(Tightest { margin, end: i as u32 + 1, length: length as u32 + 1 });
    }
    Ok(tightest)
}
