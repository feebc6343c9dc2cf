// Jobs to compare replies on, from a seed: good ones of every shape, and damaged ones aimed at each refusal and at each pair of them.
// A job is made as a value whose fields may hold anything that their bits can, and packed last.
// In order: dice; a job as a value, packed; runs; levels and conditions; damage; edges of stamps; the list of jobs.

// ---- Dice ----

// Numbers from a seed (splitmix64).
pub struct Dice(u64);

impl Dice {
    pub fn new(seed: u64, job: u64) -> Dice {
        let mut dice = Dice(seed.wrapping_mul(0x9E37_79B9_7F4A_7C15) ^ job.wrapping_mul(0xD1B5_4A32_D192_ED03));
        dice.next();
        dice
    }

    fn next(&mut self) -> u64 {
        self.0 = self.0.wrapping_add(0x9E37_79B9_7F4A_7C15);
        let mut z = self.0;
        z = (z ^ (z >> 30)).wrapping_mul(0xBF58_476D_1CE4_E5B9);
        z = (z ^ (z >> 27)).wrapping_mul(0x94D0_49BB_1331_11EB);
        z ^ (z >> 31)
    }

    pub fn below(&mut self, n: usize) -> usize {
        (self.next() % n as u64) as usize
    }

    // From low to high, both included.
    fn from(&mut self, low: i64, high: i64) -> i64 {
        low + self.below((high - low + 1) as usize) as i64
    }

    fn one_in(&mut self, n: usize) -> bool {
        self.below(n) == 0
    }

    fn pick<T: Copy>(&mut self, list: &[T]) -> T {
        list[self.below(list.len())]
    }
}

// ---- A job as a value ----

#[derive(Clone)]
pub struct Record {
    pub origin: usize,
    pub number: usize,
    pub level: i64,
    pub stamp: Vec<usize>,
}

#[derive(Clone)]
pub struct Station {
    pub start: i64,
    pub records: Vec<Record>,
}

#[derive(Clone)]
pub struct Condition {
    pub kind: usize,
    pub k: usize,
    pub low: i64,
    pub high: i64,
    pub asked: [bool; 8],
    pub windows: [(i64, i64); 8],
}

#[derive(Clone)]
pub struct Job {
    pub condition: Condition,
    // The number of stations as it is written.
    pub n: usize,
    pub stations: Vec<Station>,
    pub padding: usize,
    pub behind: Vec<u8>,
    // At most so many bytes are left.
    pub most: usize,
}

struct Bits {
    bytes: Vec<u8>,
    used: usize,
}

impl Bits {
    fn put(&mut self, value: i64, bits: usize) {
        for i in (0..bits).rev() {
            if self.used % 8 == 0 {
                self.bytes.push(0);
            }
            let last = self.bytes.len() - 1;
            self.bytes[last] |= ((value >> i & 1) as u8) << (7 - self.used % 8);
            self.used += 1;
        }
    }
}

impl Condition {
    pub fn pack(&self) -> Vec<u8> {
        let mut bits = Bits { bytes: Vec::new(), used: 0 };
        bits.put(self.kind as i64, 2);
        bits.put(self.k as i64, 6);
        bits.put(self.low, 16);
        bits.put(self.high, 16);
        for asked in self.asked {
            bits.put(i64::from(asked), 1);
        }
        for (low, high) in self.windows {
            bits.put(low, 16);
            bits.put(high, 16);
        }
        bits.bytes
    }
}

impl Job {
    pub fn pack(&self) -> Vec<u8> {
        let mut bits = Bits { bytes: Vec::new(), used: 0 };
        bits.put(self.n as i64, 4);
        for station in &self.stations {
            bits.put(station.records.len() as i64, 8);
            bits.put(station.start, 12);
        }
        for record in self.stations.iter().flat_map(|s| &s.records) {
            bits.put(record.origin as i64, 4);
            bits.put(record.number as i64, 8);
            bits.put(record.level, 12);
            for &count in &record.stamp {
                bits.put(count as i64, 8);
            }
        }
        if bits.used % 8 != 0 {
            bits.put(self.padding as i64, 8 - bits.used % 8);
        }
        let mut bytes = self.condition.pack();
        bytes.extend(bits.bytes);
        bytes.extend(&self.behind);
        bytes.truncate(self.most);
        bytes
    }

    // Gives every record the stamp that follows from the messages; false if the receipts go round in a circle.
    pub fn stamp(&mut self) -> bool {
        let n = self.stations.len();
        let mut done = vec![0; n];
        loop {
            let mut moved = false;
            for p in 0..n {
                while let Some(stamp) = self.next_stamp(p, &done) {
                    self.stations[p].records[done[p]].stamp = stamp;
                    done[p] += 1;
                    moved = true;
                }
            }
            if !moved {
                return (0..n).all(|p| done[p] == self.stations[p].records.len());
            }
        }
    }

    // The stamp of the next record of station p, if there is one and what it names is done.
    fn next_stamp(&self, p: usize, done: &[usize]) -> Option<Vec<usize>> {
        let e = done[p];
        let record = self.stations[p].records.get(e)?;
        let mut stamp = if e == 0 { vec![0; done.len()] } else { self.stations[p].records[e - 1].stamp.clone() };
        if record.origin != 0 {
            let sender = record.origin.checked_sub(1).filter(|&q| q < done.len())?;
            if record.number == 0 || record.number > done[sender] {
                return None;
            }
            let named = &self.stations[sender].records[record.number - 1].stamp;
            stamp = stamp.iter().zip(named).map(|(&a, &b)| a.max(b)).collect();
        }
        stamp[p] += 1;
        Some(stamp)
    }

    fn total(&self) -> usize {
        self.stations.iter().map(|s| s.records.len()).sum()
    }

    // A record at random, as station and place; none if there is no event.
    fn any_record(&self, dice: &mut Dice) -> Option<(usize, usize)> {
        let with: Vec<usize> = (0..self.stations.len()).filter(|&p| !self.stations[p].records.is_empty()).collect();
        if with.is_empty() {
            return None;
        }
        let p = dice.pick(&with);
        Some((p, dice.below(self.stations[p].records.len())))
    }

    // A receipt at random, or a local step.
    fn any_of(&self, dice: &mut Dice, receipt: bool) -> Option<(usize, usize)> {
        let mut fits = Vec::new();
        for (p, station) in self.stations.iter().enumerate() {
            for (e, record) in station.records.iter().enumerate() {
                if (record.origin != 0) == receipt {
                    fits.push((p, e));
                }
            }
        }
        if fits.is_empty() { None } else { Some(dice.pick(&fits)) }
    }
}

// ---- Runs ----

#[derive(Clone, Copy)]
pub enum Size {
    Tiny,
    Small,
    Medium,
    // Just within 65,536; 65,536; just above; far above.
    Large,
    Full,
    Above,
    FarAbove,
}

// How many events each station has.
fn counts(dice: &mut Dice, size: Size) -> Vec<usize> {
    match size {
        Size::Tiny => thrown(dice, 3, 4),
        Size::Small => thrown(dice, 8, 9),
        Size::Medium => {
            let most = dice.pick(&[60, 300, 1_500]);
            grown(dice, most)
        }
        Size::Large => (0..20).map(|_| grown(dice, 65_536)).max_by_key(|m| box_of(m)).unwrap(),
        Size::Full => {
            let n = 2 + dice.below(7);
            let mut powers = vec![0; n];
            for _ in 0..16 {
                let open: Vec<usize> = (0..n).filter(|&p| powers[p] < 8).collect();
                powers[dice.pick(&open)] += 1;
            }
            powers.iter().map(|&power| (1 << power) - 1).collect()
        }
        Size::Above => (0..40).map(|_| past(dice)).min_by_key(|m| box_of(m)).unwrap(),
        Size::FarAbove => match dice.below(5) {
            // 256 to the power 4 and 8: nothing is left of them in 32 and in 64 bits.
            0 => vec![255; 4],
            1 => vec![255; 8],
            2 => vec![255, 255, 1],
            3 => vec![3, 3, 3, 3, 3, 3, 3, 4],
            _ => (0..3 + dice.below(6)).map(|_| 41 + dice.below(60)).collect(),
        },
    }
}

fn box_of(m: &[usize]) -> u128 {
    m.iter().map(|&x| x as u128 + 1).product()
}

// Few events, each at a station of its own choice.
fn thrown(dice: &mut Dice, stations: usize, events: usize) -> Vec<usize> {
    let n = 1 + dice.below(stations);
    let mut m = vec![0; n];
    let used = if dice.one_in(3) { 1 + dice.below(n) } else { n };
    for _ in 0..dice.below(events + 1).max(dice.below(events + 1)) {
        m[dice.below(used)] += 1;
    }
    let turn = dice.below(n);
    m.rotate_left(turn);
    m
}

// Events as long as the box stays within a limit.
fn grown(dice: &mut Dice, most: u128) -> Vec<usize> {
    let n = 1 + dice.below(8);
    let mut m = vec![0; n];
    for _ in 0..600 {
        let mut more = m.clone();
        let p = dice.below(n);
        more[p] += 1;
        if more[p] < 256 && box_of(&more) <= most {
            m = more;
        }
    }
    m
}

// A box above the limit by one event.
fn past(dice: &mut Dice) -> Vec<usize> {
    let mut m = vec![0; 3 + dice.below(6)];
    while box_of(&m) <= 65_536 {
        let p = dice.below(m.len());
        m[p] = (m[p] + 1).min(255);
    }
    m
}

#[derive(Clone, Copy)]
enum Shape {
    Silent,
    Chain,
    Mixed,
    OutOfOrder,
    Doubled,
    Broadcast,
    Gathered,
}

const SHAPES: [Shape; 9] = [
    Shape::Silent,
    Shape::Silent,
    Shape::Chain,
    Shape::Mixed,
    Shape::Mixed,
    Shape::OutOfOrder,
    Shape::Doubled,
    Shape::Broadcast,
    Shape::Gathered,
];

// A run: events happen one after the other at stations chosen at random, some of them receipts of messages of events that have happened.
// The job has no condition yet; beside it the order in which the events happened.
fn run(dice: &mut Dice, m: &[usize]) -> (Job, Vec<usize>) {
    let n = m.len();
    let shape = dice.pick(&SHAPES);
    let style = dice.below(8);
    let often = 2 + dice.below(7);
    let mut job = Job {
        condition: nothing_asked(),
        n,
        stations: (0..n).map(|_| Station { start: level(dice, style, 0), records: Vec::new() }).collect(),
        padding: 0,
        behind: Vec::new(),
        most: usize::MAX,
    };
    let mut order: Vec<usize> = Vec::new();
    let mut last: Option<(usize, usize)> = None;
    while job.total() < m.iter().sum() {
        let open: Vec<usize> = (0..n).filter(|&p| job.stations[p].records.len() < m[p]).collect();
        let p = dice.pick(&open);
        let others: Vec<usize> = (0..n).filter(|&q| q != p && !job.stations[q].records.is_empty()).collect();
        let (origin, number) = if others.is_empty() { (0, 0) } else { message(dice, &job, shape, often, p, &others, &order, last) };
        if origin != 0 {
            last = Some((origin, number));
        }
        let level = level(dice, style, job.stations[p].records.len() + 1);
        job.stations[p].records.push(Record { origin, number, level, stamp: vec![0; n] });
        order.push(p);
    }
    job.stamp();
    (job, order)
}

// What the next event of station p receives: origin and sender's number.
#[allow(clippy::too_many_arguments)]
fn message(dice: &mut Dice, job: &Job, shape: Shape, often: usize, p: usize, others: &[usize], order: &[usize], last: Option<(usize, usize)>) -> (usize, usize) {
    let q = dice.pick(others);
    let sent = job.stations[q].records.len();
    match shape {
        Shape::Silent => (0, 0),
        Shape::Chain => match order.last() {
            Some(&q) if q != p => (q + 1, job.stations[q].records.len()),
            _ => (0, 0),
        },
        Shape::Mixed => {
            if dice.one_in(often) { (q + 1, 1 + dice.below(sent)) } else { (0, 0) }
        }
        // Later messages first: below the last one received from there, if there is one below.
        Shape::OutOfOrder => {
            let before = job.stations[p].records.iter().rev().find(|r| r.origin == q + 1).map(|r| r.number);
            match before {
                Some(number) if number > 1 => (q + 1, number - 1),
                _ if dice.one_in(2) => (q + 1, sent),
                _ => (0, 0),
            }
        }
        Shape::Doubled => match last {
            Some((origin, number)) if origin != p + 1 && !dice.one_in(3) => (origin, number),
            _ => (q + 1, 1 + dice.below(sent)),
        },
        Shape::Broadcast => {
            let first = others[0];
            if job.stations[p].records.is_empty() || dice.one_in(often) { (first + 1, 1) } else { (0, 0) }
        }
        // Late events receive the latest of the others.
        Shape::Gathered => {
            if order.len() % 4 >= 2 { (q + 1, sent) } else { (0, 0) }
        }
    }
}

// ---- Levels and conditions ----

// A level after event e: a gate's, a low one, an extreme one, any, or one that tells the event.
fn level(dice: &mut Dice, style: usize, e: usize) -> i64 {
    match style {
        0 => dice.from(0, 1),
        1 => dice.from(-3, 3),
        2 => dice.pick(&[-2048, -2047, -1, 0, 1, 2046, 2047]),
        3 => dice.from(-2048, 2047),
        _ => e as i64,
    }
}

fn nothing_asked() -> Condition {
    Condition { kind: 0, k: 0, low: 0, high: 0, asked: [false; 8], windows: [(0, 0); 8] }
}

// A condition that a moment of the run may satisfy: windows and sums are made around the levels of one, or are extreme.
fn condition(dice: &mut Dice, job: &Job, order: &[usize]) -> Condition {
    let n = job.stations.len();
    let mut c = nothing_asked();
    let far = if dice.one_in(4) { dice.below(order.len() + 1) } else { order.len().min(1 + dice.below(order.len().max(2) - 1)) };
    let levels: Vec<i64> = (0..n).map(|p| level_after(job, p, order[..far].iter().filter(|&&q| q == p).count())).collect();
    let asks = dice.below(16);
    for p in 0..n {
        c.asked[p] = match asks {
            0 => false,
            1..=9 => true,
            _ => dice.one_in(2),
        };
    }
    c.kind = dice.below(3);
    if c.kind == 2 {
        let sum: i64 = (0..n).filter(|&p| c.asked[p]).map(|p| levels[p]).sum();
        (c.low, c.high) = limits(dice, sum, &[-32768, -16385, -16384, -16383, 0, 16375, 16376, 16377, 32767]);
        return c;
    }
    let just = !dice.one_in(3);
    for p in 0..n {
        if c.asked[p] && just {
            c.windows[p] = (levels[p], levels[p]);
        } else if c.asked[p] {
            c.windows[p] = limits(dice, levels[p], &[-32768, -2049, -2048, -2047, 0, 2046, 2047, 2048, 32767]);
        }
    }
    if c.kind == 1 {
        let asked = c.asked.iter().filter(|&&a| a).count() as i64;
        c.k = match dice.below(4) {
            0 => dice.from(0, 8) as usize,
            1 | 2 => asked as usize,
            _ => dice.from(asked.min(1), asked) as usize,
        };
    }
    c
}

fn level_after(job: &Job, p: usize, e: usize) -> i64 {
    if e == 0 { job.stations[p].start } else { job.stations[p].records[e - 1].level }
}

// Two ends, low not above high: at a value, around it, beside it, or from a list of extremes.
fn limits(dice: &mut Dice, value: i64, extremes: &[i64]) -> (i64, i64) {
    let pair = match dice.below(9) {
        0..=2 => (value, value),
        3 => (value - dice.from(0, 3), value + dice.from(0, 3)),
        4 => (value + 1, value + 1 + dice.from(0, 2)),
        5 => (value - 1 - dice.from(0, 2), value - 1),
        6 => (value, dice.pick(extremes)),
        7 => (dice.pick(extremes), value),
        _ => (dice.pick(extremes), dice.pick(extremes)),
    };
    (pair.0.min(pair.1), pair.0.max(pair.1))
}

// A good job of some size.
fn good(dice: &mut Dice, size: Size) -> Job {
    let m = counts(dice, size);
    let (mut job, order) = run(dice, &m);
    job.condition = condition(dice, &job, &order);
    job
}

// ---- Damage ----

// One way to damage a job, with the refusal that it is aimed at. Where two meet, the law's order of checks decides.
#[derive(Clone, Copy, PartialEq)]
pub enum Fault {
    ConditionShort,
    NoRecording,
    HeaderShort,
    RecordsShort,
    NoStation,
    ManyStations,
    Longer,
    Padding,
    OriginAbove,
    OriginItself,
    LocalWithNumber,
    ReceiptOfNone,
    ReceiptAbove,
    StampRaised,
    StampLowered,
    StampAtEnd,
    KindThree,
    KAboveEight,
    KUnused,
    PairUnused,
    WindowUnused,
    WindowUpsideDown,
    PairUpsideDown,
    AskedAbove,
    BoxAbove,
}

pub const FAULTS: [(Fault, u32); 25] = [
    (Fault::ConditionShort, 1),
    (Fault::NoRecording, 1),
    (Fault::HeaderShort, 1),
    (Fault::RecordsShort, 1),
    (Fault::NoStation, 2),
    (Fault::ManyStations, 2),
    (Fault::Longer, 3),
    (Fault::Padding, 4),
    (Fault::OriginAbove, 5),
    (Fault::OriginItself, 5),
    (Fault::LocalWithNumber, 6),
    (Fault::ReceiptOfNone, 6),
    (Fault::ReceiptAbove, 6),
    (Fault::StampRaised, 7),
    (Fault::StampLowered, 7),
    (Fault::StampAtEnd, 7),
    (Fault::KindThree, 8),
    (Fault::KAboveEight, 8),
    (Fault::KUnused, 8),
    (Fault::PairUnused, 8),
    (Fault::WindowUnused, 8),
    (Fault::WindowUpsideDown, 8),
    (Fault::PairUpsideDown, 8),
    (Fault::AskedAbove, 9),
    (Fault::BoxAbove, 10),
];

// A job to damage: with a box above the limit if one of the faults is that; with few stations, and an even number of them, if padding or asked stations
// are to be wrong; and with events.
fn to_damage(dice: &mut Dice, faults: &[Fault]) -> Job {
    loop {
        let size = match faults.contains(&Fault::BoxAbove) {
            true if dice.one_in(20) => Size::FarAbove,
            true => Size::Above,
            false if dice.one_in(3) => Size::Medium,
            false => Size::Small,
        };
        let job = good(dice, size);
        let n = job.stations.len();
        let suits = |fault: &Fault| match fault {
            Fault::Padding => n % 2 == 0,
            Fault::AskedAbove => n < 8,
            _ => true,
        };
        if job.total() > 1 && faults.iter().all(suits) {
            return job;
        }
    }
}

// Damages a job; what cannot be had in this job is left out.
fn damage(dice: &mut Dice, job: &mut Job, fault: Fault) {
    let n = job.stations.len();
    let header = 38 + (4 + 20 * n).div_ceil(8);
    match fault {
        Fault::ConditionShort => job.most = dice.below(38),
        Fault::NoRecording => job.most = 38,
        Fault::HeaderShort => job.most = job.most.min(39 + dice.below(header - 39)),
        Fault::RecordsShort => {
            let length = job.pack().len();
            job.most = job.most.min(header + dice.below(length.saturating_sub(header).max(1)));
        }
        Fault::NoStation => job.n = 0,
        Fault::ManyStations => job.n = 9 + dice.below(7),
        Fault::Longer => job.behind = (0..dice.pick(&[1, 1, 2, 11, 200])).map(|_| dice.pick(&[0, 0, 1, 255])).collect(),
        Fault::Padding => job.padding = 1 + dice.below(15),
        Fault::KindThree => job.condition.kind = 3,
        Fault::KAboveEight => job.condition.k = 9 + dice.below(55),
        Fault::KUnused => {
            job.condition.kind = dice.pick(&[0, 2]);
            job.condition.k = 1 + dice.below(8);
        }
        Fault::PairUnused => {
            job.condition.kind = dice.below(2);
            let value = dice.pick(&[1, -1, 255, -32768]);
            if dice.one_in(2) { job.condition.low = value } else { job.condition.high = value }
        }
        Fault::WindowUnused => {
            let p = dice.below(8);
            if job.condition.kind != 2 {
                job.condition.asked[p] = false;
            }
            job.condition.windows[p] = dice.pick(&[(0, 1), (-1, 0), (5, 5), (1, 0), (-32768, 32767)]);
        }
        Fault::WindowUpsideDown => {
            if job.condition.kind == 2 {
                job.condition = nothing_asked();
            }
            let p = dice.below(n);
            let low = dice.from(-32767, 32767);
            job.condition.asked[p] = true;
            job.condition.windows[p] = (low, dice.pick(&[low - 1, -32768]));
        }
        Fault::PairUpsideDown => {
            let none = dice.one_in(2);
            job.condition.kind = 2;
            job.condition.k = 0;
            job.condition.windows = [(0, 0); 8];
            if none {
                job.condition.asked = [false; 8];
            }
            job.condition.low = dice.from(-32767, 32767);
            job.condition.high = dice.pick(&[job.condition.low - 1, -32768]);
        }
        Fault::AskedAbove => {
            if n < 8 {
                let p = n + dice.below(8 - n);
                job.condition.asked[p] = true;
                if job.condition.kind != 2 {
                    job.condition.windows[p] = dice.pick(&[(0, 0), (-32768, 32767), (1, 1)]);
                }
            }
        }
        Fault::BoxAbove => {}
        _ => damage_record(dice, job, fault),
    }
}

fn damage_record(dice: &mut Dice, job: &mut Job, fault: Fault) {
    let n = job.stations.len();
    let place = match fault {
        Fault::LocalWithNumber => job.any_of(dice, false),
        Fault::ReceiptOfNone | Fault::ReceiptAbove => job.any_of(dice, true).or_else(|| job.any_record(dice)),
        _ => job.any_record(dice),
    };
    let Some((p, e)) = place else { return };
    let m: Vec<usize> = job.stations.iter().map(|s| s.records.len()).collect();
    let record = &mut job.stations[p].records[e];
    let place = dice.below(n);
    match fault {
        Fault::OriginAbove => record.origin = n + 1 + dice.below(15 - n),
        Fault::OriginItself => record.origin = p + 1,
        Fault::LocalWithNumber => record.number = 1 + dice.pick(&[0, 0, 254]),
        Fault::ReceiptOfNone => {
            if record.origin == 0 && n > 1 {
                record.origin = (p + 1 + dice.below(n - 1)) % n + 1;
            }
            record.number = 0;
        }
        Fault::ReceiptAbove => {
            if record.origin == 0 && n > 1 {
                record.origin = (p + 1 + dice.below(n - 1)) % n + 1;
            }
            let sent = record.origin.checked_sub(1).and_then(|q| m.get(q)).copied().unwrap_or(0);
            record.number = (sent + 1 + dice.pick(&[0, 0, 1, 255])).min(255);
        }
        Fault::StampRaised => record.stamp[place] = (record.stamp[place] + 1) % 256,
        Fault::StampLowered => record.stamp[place] = (record.stamp[place] + 255) % 256,
        _ => record.stamp[place] = dice.pick(&[0, 254, 255]),
    }
}

// ---- Edges of stamps ----

// Jobs whose stamps are wrong, or right, in a way that is easily missed.
fn stamp_edge(dice: &mut Dice) -> Job {
    let mut job = loop {
        let size = dice.pick(&[Size::Tiny, Size::Small, Size::Medium]);
        let job = good(dice, size);
        if job.stations.len() > 1 && job.total() > 1 {
            break job;
        }
    };
    match dice.below(6) {
        0 => circle(dice, &mut job),
        1 => wrong_and_named(dice, &mut job),
        2 => raised_past_255(dice, &mut job),
        3 => long_station(dice, &mut job),
        4 => other_message(dice, &mut job),
        _ => stamps_from_later(dice, &mut job),
    }
    job
}

// Receipts that go round: an event receives what is sent after it. Stamps as near to the rule as a few rounds of it bring them.
fn circle(dice: &mut Dice, job: &mut Job) {
    let n = job.stations.len();
    let Some((p, e)) = job.any_record(dice) else { return };
    let others: Vec<usize> = (0..n).filter(|&q| q != p && !job.stations[q].records.is_empty()).collect();
    if others.is_empty() {
        return;
    }
    let q = dice.pick(&others);
    let f = dice.below(job.stations[q].records.len());
    (job.stations[p].records[e].origin, job.stations[p].records[e].number) = (q + 1, f + 1);
    (job.stations[q].records[f].origin, job.stations[q].records[f].number) = (p + 1, e + 1);
    for _ in 0..dice.below(4) {
        follow(job);
    }
}

// Every record's stamp from those recorded, the rule once over all records in file order; counts of 8 bits.
fn follow(job: &mut Job) {
    for p in 0..job.stations.len() {
        for e in 0..job.stations[p].records.len() {
            follow_one(job, p, e);
        }
    }
}

fn follow_one(job: &mut Job, p: usize, e: usize) {
    let n = job.stations.len();
    let record = &job.stations[p].records[e];
    let mut stamp = if e == 0 { vec![0; n] } else { job.stations[p].records[e - 1].stamp.clone() };
    if record.origin != 0 && record.origin <= n {
        if let Some(named) = record.number.checked_sub(1).and_then(|f| job.stations[record.origin - 1].records.get(f)) {
            stamp = stamp.iter().zip(&named.stamp).map(|(&a, &b)| a.max(b)).collect();
        }
    }
    stamp[p] = (stamp[p] + 1) % 256;
    job.stations[p].records[e].stamp = stamp;
}

// A stamp is wrong, and every other follows from those recorded: only the wrong one breaks the rule.
fn wrong_and_named(dice: &mut Dice, job: &mut Job) {
    let Some((p, e)) = job.any_of(dice, true).and_then(|(p, e)| named_by(job, p, e)).or_else(|| job.any_record(dice)) else { return };
    let place = dice.below(job.stations.len());
    let wrong = dice.pick(&[0, 1, 2, 5, 254, 255]);
    job.stations[p].records[e].stamp[place] = wrong;
    for _ in 0..3 {
        for q in 0..job.stations.len() {
            for f in 0..job.stations[q].records.len() {
                if (q, f) != (p, e) {
                    follow_one(job, q, f);
                }
            }
        }
    }
}

// The event that a receipt names.
fn named_by(job: &Job, p: usize, e: usize) -> Option<(usize, usize)> {
    let record = &job.stations[p].records[e];
    Some((record.origin.checked_sub(1)?, record.number.checked_sub(1)?))
}

// A receipt names a record whose recorded count for the receiver is 255: raised, it is 256, and 0 is not that.
fn raised_past_255(dice: &mut Dice, job: &mut Job) {
    let Some((p, e)) = job.any_of(dice, true) else { return };
    let Some((q, f)) = named_by(job, p, e) else { return };
    job.stations[q].records[f].stamp[p] = 255;
    follow_one(job, p, e);
    if dice.one_in(3) {
        job.stations[p].records[e].stamp[p] = 255;
    }
}

// A station with 255 events, or about as many; what it sends last is received.
fn long_station(dice: &mut Dice, job: &mut Job) {
    let events = dice.pick(&[253, 254, 255, 255]);
    let mut m = vec![0; 2 + dice.below(3)];
    let long = dice.below(m.len());
    for (p, count) in m.iter_mut().enumerate() {
        *count = if p == long { events } else { dice.below(4) };
    }
    let (made, order) = run(dice, &m);
    *job = made;
    job.condition = condition(dice, job, &order);
    if let Some((p, e)) = job.any_of(dice, true) {
        if p != long && dice.one_in(2) {
            (job.stations[p].records[e].origin, job.stations[p].records[e].number) = (long + 1, events);
            job.stamp();
        }
    }
}

// A receipt says another message than its stamp does.
fn other_message(dice: &mut Dice, job: &mut Job) {
    let Some((p, e)) = job.any_of(dice, true) else { return };
    let origin = job.stations[p].records[e].origin;
    job.stations[p].records[e].number = 1 + dice.below(job.stations[origin - 1].records.len());
    if dice.one_in(2) {
        follow_one(job, p, e);
    }
}

// A wrong stamp in a later station, and an earlier station's receipt that follows the right one, or the wrong one.
fn stamps_from_later(dice: &mut Dice, job: &mut Job) {
    let Some((p, e)) = job.any_of(dice, true) else { return };
    let Some((q, f)) = named_by(job, p, e) else { return };
    let place = dice.below(job.stations.len());
    job.stations[q].records[f].stamp[place] += 1;
    if dice.one_in(2) {
        follow_one(job, p, e);
    }
}

// ---- The list of jobs ----

// Of this many jobs each class has its share, below; the rarer a size, the dearer it is.
const ROUND: usize = 400;

// The jobs of a comparison, in order. Every round has good jobs of all sizes, single faults, pairs of faults one after the other, edges of stamps, jobs cut
// short, bits flipped, and random bytes.
pub fn jobs(count: usize, seed: u64) -> Vec<Vec<u8>> {
    (0..count).map(|i| job(i, &mut Dice::new(seed, i as u64))).collect()
}

fn job(i: usize, dice: &mut Dice) -> Vec<u8> {
    let round = i / ROUND;
    match i % ROUND {
        0 => good(dice, Size::Large).pack(),
        1 => good(dice, Size::Full).pack(),
        2 => good(dice, if round % 4 == 0 { Size::FarAbove } else { Size::Above }).pack(),
        3..=29 => good(dice, Size::Medium).pack(),
        30..=99 => good(dice, Size::Small).pack(),
        100..=129 => good(dice, Size::Tiny).pack(),
        130..=179 => damaged(dice, &[FAULTS[(round * 50 + i) % FAULTS.len()].0]),
        180..=299 => {
            let (a, b) = pair(round * 120 + i % ROUND - 180);
            damaged(dice, &[FAULTS[a].0, FAULTS[b].0])
        }
        300..=324 => stamp_edge(dice).pack(),
        325..=349 => cut_short(dice),
        350..=374 => bits_flipped(dice),
        375 => long(dice),
        _ => random_bytes(dice),
    }
}

// Two faults, all pairs one after the other; a fault with itself is done twice.
fn pair(i: usize) -> (usize, usize) {
    let i = i % (FAULTS.len() * FAULTS.len());
    (i / FAULTS.len(), i % FAULTS.len())
}

pub fn pairs() -> usize {
    FAULTS.len() * FAULTS.len()
}

// How many of the pairs the first jobs of a comparison have been aimed at.
pub fn pairs_tried(count: usize) -> usize {
    let tried = (0..count).filter(|i| (180..300).contains(&(i % ROUND))).count();
    tried.min(pairs())
}

fn damaged(dice: &mut Dice, faults: &[Fault]) -> Vec<u8> {
    let mut job = to_damage(dice, faults);
    for &fault in faults {
        damage(dice, &mut job, fault);
    }
    job.pack()
}

fn cut_short(dice: &mut Dice) -> Vec<u8> {
    let mut job = good(dice, Size::Small).pack();
    job.truncate(dice.below(job.len()));
    job
}

fn bits_flipped(dice: &mut Dice) -> Vec<u8> {
    let size = dice.pick(&[Size::Tiny, Size::Small, Size::Medium]);
    let mut job = good(dice, size).pack();
    for _ in 0..dice.pick(&[1, 1, 1, 2, 3]) {
        let bit = dice.below(job.len() * 8);
        job[bit / 8] ^= 1 << (bit % 8);
    }
    job
}

// The largest recording, and more bytes than are looked at, up to the longest job that two bytes announce.
fn long(dice: &mut Dice) -> Vec<u8> {
    let (made, order) = run(dice, &[255; 8]);
    let mut job = made;
    job.condition = condition(dice, &job, &order);
    let mut bytes = job.pack();
    let length = dice.pick(&[22_499, 22_499, 22_500, 22_501, 30_000, 65_535]);
    while bytes.len() < length {
        bytes.push(dice.pick(&[0, 1, 255]));
    }
    bytes
}

// Bytes at random, half of them behind a good condition, and half of those behind few stations.
pub fn random_bytes(dice: &mut Dice) -> Vec<u8> {
    let length = dice.pick(&[0, 1, 2, 37, 38, 39, 45, 60, 90, 150, 400]);
    let mut bytes: Vec<u8> = (0..length).map(|_| dice.below(256) as u8).collect();
    if dice.one_in(2) && length > 38 {
        bytes[..38].fill(0);
        if dice.one_in(2) {
            bytes[38] = 0x10 + 0x10 * dice.below(3) as u8;
        }
    }
    bytes
}
