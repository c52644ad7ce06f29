// The annexe program in plain Rust, by the same algorithm: what the proved one is timed against. Nothing is proved of this one.
// Energy is in watt-hours; money is in hundredths of a penny, unless a name says pence.
use std::fmt;
use std::io::{self, Read, Write};

// The most bytes that an input may have.
const MOST_BYTES: usize = 65_536;

// The most homes that a group can have.
const MOST_HOMES: u32 = 24;

// The most that a group may cost, or earn.
const LIMIT: i64 = 500_000_000;

// How many watt-hours a tariff is for.
const UNIT: i64 = 1000;

fn main() -> io::Result<()> {
    let mut input = Vec::new();
    // one byte more than an input may have, so that a longer one is refused
    let enough = MOST_BYTES as u64 + 1;
    io::stdin().take(enough).read_to_end(&mut input)?;
    match list(&input) {
        Ok(draft) => write!(io::stdout(), "{draft}"),
        Err(refusal) => write!(io::stdout(), "{refusal}"),
    }
}

// The bills for an input.
fn list(input: &[u8]) -> Result<Draft, Refusal> {
    let words = words_in(input).ok_or(Refusal::Unreadable)?;
    let (named, rest) = words.split_first_chunk::<4>().ok_or(Refusal::Unreadable)?;
    let homes = homes_in(named).ok_or(Refusal::Unreadable)?;
    let period = Period::read(rest)?;
    if homes.homes() == 0 {
        return Err(Refusal::NoHomes);
    }
    let table = costs_inside(&homes, &period)?;
    Ok(Draft::bill(homes, &table))
}

// Why an input has no bills.
enum Refusal {
    // too long, no whole words, or the first four do not name at most 24 homes
    Unreadable,
    // the word at this place offends, in the part of a period that has this number
    Period { part: u8, place: usize },
    NoHomes,
    // the composition at this place has this fault
    Faulty { place: usize, fault: u8 },
}

impl fmt::Display for Refusal {
    fn fmt(&self, f: &mut fmt::Formatter) -> fmt::Result {
        match self {
            Refusal::Unreadable => writeln!(f, "refused 61"),
            Refusal::Period { part, place } => writeln!(f, "refused {part} {place}"),
            Refusal::NoHomes => writeln!(f, "refused 4"),
            Refusal::Faulty { place, fault } => writeln!(f, "refused 7 {place} {fault} 0"),
        }
    }
}

// The words that bytes write down, the low byte first, if they are whole words, and not too many.
fn words_in(input: &[u8]) -> Option<Vec<u32>> {
    let (chunks, rest) = input.as_chunks::<4>();
    if input.len() > MOST_BYTES || !rest.is_empty() {
        return None;
    }
    Some(
        chunks
            .iter()
            .map(|&bytes| u32::from_le_bytes(bytes))
            .collect(),
    )
}

// The homes that four words name, one word for each type.
fn homes_in(words: &[u32; 4]) -> Option<Composition> {
    let mut counts = [0; 4];
    let mut homes = 0;
    for ((count, word), label) in counts.iter_mut().zip(words).zip(0x91..) {
        let named = word & 0x00FF_FFFF;
        homes += named;
        if word >> 24 != label || homes > MOST_HOMES {
            return None;
        }
        *count = named as u8;
    }
    Some(Composition { counts })
}

// A group of homes: how many there are of each demand type, at most 24 in all.
#[derive(Clone, Copy)]
struct Composition {
    counts: [u8; 4],
}

impl Composition {
    // How many homes in all.
    fn homes(&self) -> u32 {
        self.counts.iter().map(|&count| u32::from(count)).sum()
    }

    // How many groups lie inside this one, itself and the empty one among them.
    fn size(&self) -> usize {
        choices(&self.counts)
    }

    // The group at a place inside this one. The count of type 1 runs fastest.
    fn at(&self, place: usize) -> Composition {
        let mut left = place;
        let counts = self.counts.map(|most| {
            let radix = usize::from(most) + 1;
            let count = left % radix;
            left /= radix;
            count as u8
        });
        Composition { counts }
    }

    // The place of a group inside this one.
    fn place(&self, of: &Composition) -> usize {
        let counts = self.counts.iter().zip(&of.counts).rev();
        counts.fold(0, |place, (&most, &count)| {
            place * (usize::from(most) + 1) + usize::from(count)
        })
    }

    // How many places further on a group with one home more of a type stands.
    fn step(&self, of: usize) -> usize {
        choices(&self.counts[..of])
    }

    // This group less one home of a type, if it has one.
    fn without_one(&self, of: usize) -> Option<Composition> {
        let mut counts = self.counts;
        counts[of] = counts[of].checked_sub(1)?;
        Some(Composition { counts })
    }
}

// How many choices there are, where each count may be anything from 0 up to its own.
fn choices(counts: &[u8]) -> usize {
    counts.iter().map(|&count| usize::from(count) + 1).product()
}

// What a word may be at its place in a period.
#[derive(Clone, Copy)]
struct Slot {
    part: u8,
    // the word whose value is 0
    label: u32,
    least: u32,
    most: u32,
}

const LENGTH: Slot = slot(21, 0x1000_0000, 1, 17_568);
const TYPES: Slot = slot(22, 0x2000_0000, 1, 4);
const LOWEST: Slot = slot(23, 0x3000_0000, 0, 100_000);
const HIGHEST: Slot = slot(23, 0x3100_0000, 0, 100_000);
const MOST: Slot = slot(23, 0x3200_0000, 0, 50_000);
const CHARGING: Slot = slot(23, 0x3300_0000, 1, 100);
const DISCHARGING: Slot = slot(23, 0x3400_0000, 1, 100);
const IMPORT: Slot = slot(24, 0x4000_0000, 0, 20_000);
const EXPORT: Slot = slot(24, 0x5000_0000, 0, 20_000);
const DEMAND: Slot = slot(24, 0x6000_0000, 0, 20_000);
const GENERATION: Slot = slot(24, 0x7000_0000, 0, 20_000);
const CLOSING: Slot = slot(25, 0xF000_0000, 0, 0);

const fn slot(part: u8, label: u32, least: u32, most: u32) -> Slot {
    Slot {
        part,
        label,
        least,
        most,
    }
}

// The words of a period that are still to be checked.
struct Cursor<'a> {
    rest: &'a [u32],
    // how many words have been read, which is the place of the next
    place: usize,
}

impl Cursor<'_> {
    // The value of the next word, which is read if it is the one that is wanted.
    fn take(&mut self, slot: Slot) -> Option<u32> {
        let (head, rest) = self.rest.split_first()?;
        // no limits reach as far as the next label, so that they rule out every other label
        let value = head.checked_sub(slot.label)?;
        if !(slot.least..=slot.most).contains(&value) {
            return None;
        }
        self.rest = rest;
        self.place += 1;
        Some(value)
    }

    // The value of the next word, which must be the one that is wanted.
    fn word(&mut self, slot: Slot) -> Result<u32, Refusal> {
        self.take(slot).ok_or(Refusal::Period {
            part: slot.part,
            place: self.place,
        })
    }

    // The battery's words. The highest charge must be no lower than the lowest.
    fn battery(&mut self) -> Result<Battery, Refusal> {
        let lowest = self.word(LOWEST)?;
        Ok(Battery {
            lowest,
            highest: self.word(Slot {
                least: lowest,
                ..HIGHEST
            })?,
            most: self.word(MOST)?,
            charging: self.word(CHARGING)?,
            discharging: self.word(DISCHARGING)?,
        })
    }

    // The half-hours. The first must have both tariffs, a later one may leave them out.
    fn half_hours(&mut self, count: u32, types: usize) -> Result<(), Refusal> {
        self.word(IMPORT)?;
        self.word(EXPORT)?;
        self.amounts(types)?;
        for _ in 1..count {
            self.take(IMPORT);
            self.take(EXPORT);
            self.amounts(types)?;
        }
        Ok(())
    }

    // The amounts that every half-hour has: a demand for each type, and its generation.
    fn amounts(&mut self, types: usize) -> Result<(), Refusal> {
        for _ in 0..types {
            self.word(DEMAND)?;
        }
        self.word(GENERATION)?;
        Ok(())
    }

    // The closing word, whose value is its own place, and nothing behind it.
    fn close(&mut self) -> Result<(), Refusal> {
        let place = self.place as u32;
        self.word(Slot {
            least: place,
            most: place,
            ..CLOSING
        })?;
        if !self.rest.is_empty() {
            return Err(Refusal::Period {
                part: CLOSING.part,
                place: self.place,
            });
        }
        Ok(())
    }
}

// A period that the check accepted.
struct Period<'a> {
    half_hours: u32,
    // for how many types it has readings
    types: usize,
    battery: Battery,
    // from the first half-hour on
    words: &'a [u32],
}

impl<'a> Period<'a> {
    // The period that words write down, or the first word that offends.
    fn read(words: &'a [u32]) -> Result<Period<'a>, Refusal> {
        let mut cursor = Cursor {
            rest: words,
            place: 0,
        };
        let half_hours = cursor.word(LENGTH)?;
        let types = cursor.word(TYPES)? as usize;
        let battery = cursor.battery()?;
        let words = cursor.rest;
        cursor.half_hours(half_hours, types)?;
        cursor.close()?;
        Ok(Period {
            half_hours,
            types,
            battery,
            words,
        })
    }

    // Its half-hours, from the first on.
    fn readings(&self) -> Readings<'a> {
        Readings {
            rest: self.words,
            left: self.half_hours,
            types: self.types,
            tariffs: Tariffs {
                import: 0,
                export: 0,
            },
        }
    }
}

#[derive(Clone, Copy)]
struct Tariffs {
    import: u32,
    export: u32,
}

// One half-hour of a period.
struct Reading {
    // the tariffs in force
    tariffs: Tariffs,
    // for one home of each type, 0 for a type without readings
    demands: [u32; 4],
    // for one home
    generation: u32,
}

// The half-hours of a period that are still to be read. The check has seen every word, so that only the tariffs, which may be left out, are told by their kind.
struct Readings<'a> {
    rest: &'a [u32],
    // how many half-hours are left
    left: u32,
    types: usize,
    // the tariffs of the half-hour before
    tariffs: Tariffs,
}

impl Iterator for Readings<'_> {
    type Item = Reading;

    fn next(&mut self) -> Option<Reading> {
        self.left = self.left.checked_sub(1)?;
        self.tariffs = Tariffs {
            import: self.tariff(4, self.tariffs.import),
            export: self.tariff(5, self.tariffs.export),
        };
        Some(Reading {
            tariffs: self.tariffs,
            demands: self.demands(),
            generation: self.first(),
        })
    }
}

impl Readings<'_> {
    // The tariff that the next word gives if it is of its kind, else the one before.
    fn tariff(&mut self, kind: u32, before: u32) -> u32 {
        match self.rest {
            [head, ..] if head >> 28 == kind => self.first(),
            _ => before,
        }
    }

    // The demand of each type.
    fn demands(&mut self) -> [u32; 4] {
        let mut demands = [0; 4];
        for demand in &mut demands[..self.types] {
            *demand = self.first();
        }
        demands
    }

    // The next word's value.
    fn first(&mut self) -> u32 {
        match self.rest {
            [head, rest @ ..] => {
                self.rest = rest;
                head & 0x0FFF_FFFF
            }
            [] => 0,
        }
    }
}

// What the battery can do, for one home.
struct Battery {
    // the charge that it is never drawn below, and never filled above
    lowest: u32,
    highest: u32,
    // the most that goes in or out in a half-hour
    most: u32,
    // of what is put in, the part that is stored, and of what is drawn, the part that comes out: in percent
    charging: u32,
    discharging: u32,
}

impl Battery {
    // A group of homes, each with this battery, starts a half-hour with a charge: the charge that it ends with, its import and its export.
    fn step(&self, homes: u32, charge: u32, demand: u32, generation: u32) -> (u32, u32, u32) {
        let most = homes * self.most;
        if generation > demand {
            let left_over = generation - demand;
            let put_in = left_over.min(most).min(self.fits(homes, charge));
            let stored = put_in * self.charging / 100;
            (charge + stored, 0, left_over - put_in)
        } else {
            let lacking = demand - generation;
            let taken_out = lacking.min(most).min(self.yields(homes, charge));
            let drawn = (100 * taken_out).div_ceil(self.discharging);
            (charge - drawn, lacking - taken_out, 0)
        }
    }

    // How much can go in until it is full. Here and below, 100 times what 24 homes hold fits in 32 bits.
    fn fits(&self, homes: u32, charge: u32) -> u32 {
        100 * (homes * self.highest - charge) / self.charging
    }

    // How much can come out until it is at its lowest.
    fn yields(&self, homes: u32, charge: u32) -> u32 {
        (charge - homes * self.lowest) * self.discharging / 100
    }
}

// What every composition inside some homes costs, by place, up to the first that has a fault.
fn costs_inside(homes: &Composition, period: &Period) -> Result<Vec<i64>, Refusal> {
    (0..homes.size())
        .map(|place| {
            cost(period, &homes.at(place)).map_err(|fault| Refusal::Faulty { place, fault })
        })
        .collect()
}

// What the grid charges a group for a period, or the number of its fault.
fn cost(period: &Period, group: &Composition) -> Result<i64, u8> {
    if group.counts[period.types..].iter().any(|&count| count > 0) {
        // a home of a type without readings
        return Err(12);
    }
    let amount = walk(period, group);
    if !(-LIMIT..=LIMIT).contains(&amount) {
        // an amount outside the limits
        return Err(10);
    }
    Ok(amount)
}

// Imports at the import tariff less exports at the export tariff, over all half-hours of a group.
fn walk(period: &Period, group: &Composition) -> i64 {
    let homes = group.homes();
    let mut charge = homes * period.battery.lowest;
    let mut paid = 0;
    let mut earned = 0;
    for reading in period.readings() {
        let demand = demand(group, &reading.demands);
        let generation = homes * reading.generation;
        let (after, import, export) = period.battery.step(homes, charge, demand, generation);
        paid += u64::from(import) * u64::from(reading.tariffs.import);
        earned += u64::from(export) * u64::from(reading.tariffs.export);
        charge = after;
    }
    // divided once, at the end, so that no half-hour is rounded
    (paid as i64 - earned as i64).div_euclid(UNIT)
}

// What a group demands, where a home of each type has its demand.
fn demand(group: &Composition, each: &[u32; 4]) -> u32 {
    let homes = group.counts.iter().zip(each);
    homes
        .map(|(&count, &demand)| u32::from(count) * demand)
        .sum()
}

// In how many ways some can be picked, by how many there are and how many are picked.
const CHOOSE: [[u64; 25]; 25] = choose();

const fn choose() -> [[u64; 25]; 25] {
    let mut table = [[0; 25]; 25];
    let mut of = 0;
    // no iterator runs in a constant
    while of < 25 {
        table[of][0] = 1;
        let mut picked = 1;
        while picked <= of {
            table[of][picked] = table[of - 1][picked - 1] + table[of - 1][picked];
            picked += 1;
        }
        of += 1;
    }
    table
}

// The least common multiple of 1 to as many homes as there are: what all their shares are fractions over.
fn lcm_to(homes: u32) -> u64 {
    (1..=u64::from(homes)).fold(1, |lcm, n| lcm / gcd(lcm, n) * n)
}

fn gcd(a: u64, b: u64) -> u64 {
    if b == 0 {
        a
    } else {
        gcd(b, a % b)
    }
}

// The weight among so many homes of what one adds to a group of so many others.
fn weight(lcm: u64, homes: u32, others: u32) -> u64 {
    lcm / (u64::from(homes) * CHOOSE[homes as usize - 1][others as usize])
}

// In how many ways a group can be picked out of others: one type after the other, each picked for itself.
fn ways(others: &Composition, group: &Composition) -> u64 {
    let counts = others.counts.iter().zip(&group.counts);
    counts
        .map(|(&of, &picked)| CHOOSE[usize::from(of)][usize::from(picked)])
        .product()
}

// What every composition inside some homes costs, by place.
struct CostTable<'a> {
    homes: Composition,
    costs: &'a [i64],
}

impl CostTable<'_> {
    // The share of a home of a type, if there is one: what it adds to every group of the others, weighted, added up.
    fn share(&self, of: usize, lcm: u64) -> Option<i64> {
        let others = self.homes.without_one(of)?;
        let homes = self.homes.homes();
        let sum: i128 = (0..others.size())
            .map(|place| others.at(place))
            .map(|group| {
                let factor = weight(lcm, homes, group.homes()) * ways(&others, &group);
                i128::from(factor) * i128::from(self.added(of, &group))
            })
            .sum();
        Some(sum as i64)
    }

    // What a home of a type adds to the cost of a group of the others.
    fn added(&self, of: usize, group: &Composition) -> i64 {
        let place = self.homes.place(group);
        let further = place + self.homes.step(of);
        self.costs[further] - self.costs[place]
    }
}

// What a home of a type is charged.
#[derive(Clone, Copy)]
struct Charge {
    // over the least common multiple
    share: i64,
    // the share rounded up to whole pence
    pence: i64,
}

impl Charge {
    fn of(share: i64, lcm: u64) -> Charge {
        let penny = 100 * lcm as i64;
        // rounded down on the other side of 0, which is up
        let pence = -(-share).div_euclid(penny);
        Charge { share, pence }
    }
}

// The bills of some homes.
struct Draft {
    homes: Composition,
    lcm: u64,
    // what all homes together cost
    cost: i64,
    // for each type, none without homes
    charges: [Option<Charge>; 4],
    // what every home is given back, in pence
    rebate: i64,
    // what is left over once it is given back
    purse: i64,
}

impl Draft {
    // Each home gets the most whole pence that the charges bring in above the cost; what is left over stays in the purse.
    fn bill(homes: Composition, costs: &[i64]) -> Draft {
        let table = CostTable { homes, costs };
        let lcm = lcm_to(homes.homes());
        let charges = [0, 1, 2, 3].map(|of| {
            let share = table.share(of, lcm)?;
            Some(Charge::of(share, lcm))
        });
        let cost = costs[homes.place(&homes)];
        let pot = 100 * pence_of(&homes, &charges) - cost;
        let penny_each = 100 * i64::from(homes.homes());
        Draft {
            homes,
            lcm,
            cost,
            charges,
            rebate: pot.div_euclid(penny_each),
            purse: pot.rem_euclid(penny_each),
        }
    }
}

// The pence that all homes are charged together.
fn pence_of(homes: &Composition, charges: &[Option<Charge>; 4]) -> i64 {
    let homes = homes.counts.iter().zip(charges);
    homes
        .map(|(&count, charge)| i64::from(count) * charge.map_or(0, |charge| charge.pence))
        .sum()
}

impl fmt::Display for Draft {
    fn fmt(&self, f: &mut fmt::Formatter) -> fmt::Result {
        writeln!(f, "homes {} over {}", self.homes.homes(), self.lcm)?;
        writeln!(f, "cost {}", self.cost)?;
        for ((charge, count), of) in self.charges.iter().zip(&self.homes.counts).zip(1..) {
            if let Some(Charge { share, pence }) = charge {
                let bill = pence - self.rebate;
                writeln!(f, "type {of} count {count} share {share} bill {bill}")?;
            }
        }
        writeln!(f, "rebate {} purse {}", self.rebate, self.purse)
    }
}
