// Document 01 a second time, written from its text alone: nothing here is taken from the crates, nor from the other expectations under tests/.
// The program has the form of `batch`: a stream of jobs, each behind its length in two bytes; each reply's text, and an empty line.
//
// A small recording is answered from its possible orders: every order of all events is tried, told by origins and sender's numbers alone, and no
// stamp is looked at. It is then answered from the marks of its box too, and the two have to agree. A large one is answered from its marks.
use std::cmp::Ordering;
use std::io::{Read, Write};

// "at most 22,500 bytes of it (one more than the largest job has)"
const LOOKED_AT: usize = 22_500;

// "A job is a condition followed by a recording: the recording is the part of the job that begins at byte 38."
const CONDITION: usize = 38;

// The most stations, and the largest box.
const STATIONS: usize = 8;
const BOX: u128 = 65_536;

// A recording with more possible orders, or more events, than these is a large one.
const ORDERS: usize = 4_000;
const EVENTS: usize = 12;

fn main() {
    let mut stream = Vec::new();
    std::io::stdin().read_to_end(&mut stream).expect("standard input");
    let mut out = Vec::new();
    let mut rest = &stream[..];
    while !rest.is_empty() {
        let announced = if rest.len() < 2 { 0 } else { usize::from(rest[0]) * 256 + usize::from(rest[1]) };
        rest = &rest[rest.len().min(2)..];
        let (job, behind) = rest.split_at(announced.min(rest.len()));
        rest = behind;
        out.extend_from_slice(text(&reply(&job[..job.len().min(LOOKED_AT)])).as_bytes());
        out.push(b'\n');
    }
    std::io::stdout().write_all(&out).expect("standard output");
}

// ---- The reply ----

struct Refusal {
    number: u32,
    station: usize,
    event: usize,
}

// The witness, if Poss is yes; the avoiding path, if Def is no.
#[derive(PartialEq)]
struct Verdicts {
    witness: Option<Vec<usize>>,
    avoiding: Option<Vec<usize>>,
}

enum Reply {
    Refused(Refusal),
    Answered(Verdicts),
    WaysDiffer,
}

// "0 and 0 otherwise"
fn refusal<T>(number: u32) -> Result<T, Refusal> {
    Err(Refusal { number, station: 0, event: 0 })
}

fn reply(job: &[u8]) -> Reply {
    match answered(job) {
        Err(refusal) => Reply::Refused(refusal),
        Ok(reply) => reply,
    }
}

// "Order for a job": the condition's refusals, the recording's, its records', then 9 and 10. There is room enough for any marks and any path.
fn answered(job: &[u8]) -> Result<Reply, Refusal> {
    let condition = Condition::read(job)?;
    let recording = Recording::read(&job[CONDITION..])?;
    recording.check_records()?;
    let n = recording.stations();
    if (n..STATIONS).any(|p| condition.asked[p]) {
        return refusal(9);
    }
    if recording.cuts() > BOX {
        return refusal(10);
    }
    let by_marks = recording.by_marks(&condition);
    Ok(match recording.possible_orders() {
        None => Reply::Answered(by_marks),
        Some(orders) if recording.by_orders(&condition, &orders) == by_marks => Reply::Answered(by_marks),
        Some(_) => Reply::WaysDiffer,
    })
}

// "Numbers are decimal, one space before each, each line ended by a newline."
fn text(reply: &Reply) -> String {
    let numbers = |list: &[usize]| list.iter().map(|x| format!(" {x}")).collect::<String>();
    match reply {
        Reply::Refused(r) => format!("refused {} {} {}\n", r.number, r.station, r.event),
        Reply::WaysDiffer => "the possible orders and the marks answer differently\n".to_string(),
        Reply::Answered(v) => {
            let poss = match &v.witness {
                Some(cut) => format!("poss yes{}\n", numbers(cut)),
                None => "poss no\n".to_string(),
            };
            let def = match &v.avoiding {
                Some(path) => format!("def no{}\n", numbers(path)),
                None => "def yes\n".to_string(),
            };
            poss + &def
        }
    }
}

// ---- Fields ----

// Reads fields bit after bit, "most significant bit first".
struct Fields<'a> {
    bytes: &'a [u8],
    at: usize,
}

impl Fields<'_> {
    fn next(&mut self, bits: usize) -> usize {
        let mut value = 0;
        for _ in 0..bits {
            let bit = self.bytes[self.at / 8] >> (7 - self.at % 8) & 1;
            value = value * 2 + usize::from(bit);
            self.at += 1;
        }
        value
    }

    // "two's complement"
    fn signed(&mut self, bits: usize) -> i64 {
        let value = self.next(bits) as i64;
        if value >= 1 << (bits - 1) { value - (1 << bits) } else { value }
    }
}

// ---- The condition ----

#[derive(PartialEq)]
enum Kind {
    Together,
    AtLeast(usize),
    Sum(i64, i64),
}

struct Condition {
    kind: Kind,
    asked: [bool; STATIONS],
    windows: [(i64, i64); STATIONS],
}

impl Condition {
    fn read(job: &[u8]) -> Result<Condition, Refusal> {
        if job.len() < CONDITION {
            return refusal(1);
        }
        let mut fields = Fields { bytes: job, at: 0 };
        let (kind, k) = (fields.next(2), fields.next(6));
        let (low, high) = (fields.signed(16), fields.signed(16));
        let asked: [bool; STATIONS] = std::array::from_fn(|_| fields.next(1) == 1);
        let windows: [(i64, i64); STATIONS] = std::array::from_fn(|_| (fields.signed(16), fields.signed(16)));
        let kind = match kind {
            0 => Kind::Together,
            1 => Kind::AtLeast(k),
            2 => Kind::Sum(low, high),
            _ => return refusal(8),
        };
        let is_sum = matches!(kind, Kind::Sum(..));
        // "Fields that the kind has no use for are zero"
        let k_unused = !matches!(kind, Kind::AtLeast(_)) && k != 0;
        let pair_unused = !is_sum && (low, high) != (0, 0);
        let window_unused = (0..STATIONS).any(|p| (is_sum || !asked[p]) && windows[p] != (0, 0));
        // "low above high (in an asked station's window, or in Sum's own pair even with none asked)"
        let window_upside_down = (0..STATIONS).any(|p| asked[p] && windows[p].0 > windows[p].1);
        let pair_upside_down = is_sum && low > high;
        if k > 8 || k_unused || pair_unused || window_unused || window_upside_down || pair_upside_down {
            return refusal(8);
        }
        Ok(Condition { kind, asked, windows })
    }

    // Whether it holds of the stations' levels.
    fn holds(&self, levels: &[i64]) -> bool {
        let asked = || (0..levels.len()).filter(|&p| self.asked[p]);
        let inside = |p: &usize| self.windows[*p].0 <= levels[*p] && levels[*p] <= self.windows[*p].1;
        match self.kind {
            Kind::Together => asked().all(|p| inside(&p)),
            Kind::AtLeast(k) => asked().filter(inside).count() >= k,
            Kind::Sum(low, high) => {
                let sum: i64 = asked().map(|p| levels[p]).sum();
                low <= sum && sum <= high
            }
        }
    }
}

// ---- The recording ----

// An event: its origin (0: a local step, else a station), the sender's event number, the level afterwards, the stamp.
struct Event {
    origin: usize,
    number: usize,
    level: i64,
    stamp: Vec<usize>,
}

// A station's start level and its events. Stations are numbered from 1 in replies and from 0 in lists.
struct Station {
    start: i64,
    events: Vec<Event>,
}

struct Recording(Vec<Station>);

impl Recording {
    // "no byte (1), 2, header too short or whole too short (1), 3, 4"
    fn read(bytes: &[u8]) -> Result<Recording, Refusal> {
        if bytes.is_empty() {
            return refusal(1);
        }
        let mut fields = Fields { bytes, at: 0 };
        let n = fields.next(4);
        if n == 0 || n > STATIONS {
            return refusal(2);
        }
        let header = 4 + n * (8 + 12);
        if bytes.len() * 8 < header {
            return refusal(1);
        }
        let stations: Vec<(usize, i64)> = (0..n).map(|_| (fields.next(8), fields.signed(12))).collect();
        let events: usize = stations.iter().map(|s| s.0).sum();
        let bits = header + events * (4 + 8 + 12 + 8 * n);
        let needed = bits.div_ceil(8);
        match bytes.len().cmp(&needed) {
            Ordering::Less => return refusal(1),
            Ordering::Greater => return refusal(3),
            Ordering::Equal => {}
        }
        let mut event = || Event {
            origin: fields.next(4),
            number: fields.next(8),
            level: fields.signed(12),
            stamp: (0..n).map(|_| fields.next(8)).collect(),
        };
        let recording = stations.iter().map(|&(m, start)| Station { start, events: (0..m).map(|_| event()).collect() }).collect();
        if fields.next(needed * 8 - bits) != 0 {
            return refusal(4);
        }
        Ok(Recording(recording))
    }

    fn stations(&self) -> usize {
        self.0.len()
    }

    // m of a station.
    fn m(&self, p: usize) -> usize {
        self.0[p].events.len()
    }

    // "record by record in file order 5, 6, 7"
    fn check_records(&self) -> Result<(), Refusal> {
        let records = (0..self.stations()).flat_map(|p| (1..=self.m(p)).map(move |e| (p, e)));
        let mut faults = records.map(|(p, e)| Refusal { number: self.fault(p, e), station: p + 1, event: e });
        let first = faults.find(|refusal| refusal.number != 0);
        first.map_or(Ok(()), Err)
    }

    // The refusal of one record, 0 if there is none.
    fn fault(&self, p: usize, e: usize) -> u32 {
        let event = &self.0[p].events[e - 1];
        if event.origin > self.stations() || event.origin == p + 1 {
            return 5;
        }
        let right_number = match event.origin {
            0 => event.number == 0,
            station => event.number != 0 && event.number <= self.m(station - 1),
        };
        if !right_number {
            return 6;
        }
        if event.stamp != self.ruled(p, e) { 7 } else { 0 }
    }

    // The stamp of event e of station p, by the stamp rule.
    fn ruled(&self, p: usize, e: usize) -> Vec<usize> {
        let event = &self.0[p].events[e - 1];
        let mut stamp = self.stamp(p, e - 1);
        if event.origin != 0 {
            // "the place-by-place larger of the previous stamp and the named event's stamp as recorded"
            let named = self.stamp(event.origin - 1, event.number);
            stamp = stamp.iter().zip(&named).map(|(&a, &b)| a.max(b)).collect();
        }
        stamp[p] += 1;
        stamp
    }

    // The stamp of an event as recorded; event 0 has "a stamp of zeros".
    fn stamp(&self, p: usize, e: usize) -> Vec<usize> {
        if e == 0 { vec![0; self.stations()] } else { self.0[p].events[e - 1].stamp.clone() }
    }

    fn level(&self, p: usize, e: usize) -> i64 {
        if e == 0 { self.0[p].start } else { self.0[p].events[e - 1].level }
    }

    fn satisfies(&self, cut: &[usize], condition: &Condition) -> bool {
        let levels: Vec<i64> = (0..self.stations()).map(|p| self.level(p, cut[p])).collect();
        condition.holds(&levels)
    }

    // "The box is the product of all (m_p + 1)."
    fn cuts(&self) -> u128 {
        (0..self.stations()).map(|p| self.m(p) as u128 + 1).product()
    }

    // What one event of station p adds to the rank: "the product of (m_q + 1) for all q below p".
    fn weight(&self, p: usize) -> usize {
        (0..p).map(|q| self.m(q) + 1).product()
    }

    fn rank(&self, cut: &[usize]) -> usize {
        (0..self.stations()).map(|p| cut[p] * self.weight(p)).sum()
    }

    // The cut of a rank.
    fn cut(&self, rank: usize, weights: &[usize]) -> Vec<usize> {
        (0..self.stations()).map(|p| rank / weights[p] % (self.m(p) + 1)).collect()
    }

    // ---- By possible orders ----

    // All orders of all the events in which each station's events stand in their own order and a receipt behind the event that sent the message, as
    // lists of stations; nothing for a large recording.
    fn possible_orders(&self) -> Option<Vec<Vec<usize>>> {
        let total: usize = (0..self.stations()).map(|p| self.m(p)).sum();
        let mut orders = Vec::new();
        let small = total <= EVENTS && self.go_on(&mut vec![0; self.stations()], &mut Vec::new(), total, &mut orders);
        small.then_some(orders)
    }

    // Goes on with each event that can come next, and back again; false once there are too many orders.
    fn go_on(&self, done: &mut [usize], order: &mut Vec<usize>, total: usize, orders: &mut Vec<Vec<usize>>) -> bool {
        if order.len() == total {
            orders.push(order.clone());
            return orders.len() <= ORDERS;
        }
        for p in 0..self.stations() {
            if done[p] == self.m(p) {
                continue;
            }
            let event = &self.0[p].events[done[p]];
            if event.origin != 0 && done[event.origin - 1] < event.number {
                continue;
            }
            done[p] += 1;
            order.push(p);
            let few = self.go_on(done, order, total, orders);
            order.pop();
            done[p] -= 1;
            if !few {
                return false;
            }
        }
        true
    }

    // Poss: at some moment of some order the condition holds. Def: in every order at some moment.
    fn by_orders(&self, condition: &Condition, orders: &[Vec<usize>]) -> Verdicts {
        let mut witness: Option<Vec<usize>> = None;
        let mut avoiding: Option<Vec<usize>> = None;
        for order in orders {
            let mut met = false;
            for moment in self.moments(order) {
                if !self.satisfies(&moment, condition) {
                    continue;
                }
                met = true;
                if witness.as_ref().is_none_or(|w| self.rank(&moment) < self.rank(w)) {
                    witness = Some(moment);
                }
            }
            if !met && avoiding.as_ref().is_none_or(|a| order.iter().rev().lt(a.iter().rev())) {
                avoiding = Some(order.clone());
            }
        }
        Verdicts { witness, avoiding: avoiding.map(|path| path.iter().map(|p| p + 1).collect()) }
    }

    // How many events of each station have happened at each moment of an order, "first and last cut included".
    fn moments(&self, order: &[usize]) -> Vec<Vec<usize>> {
        let mut moments = vec![vec![0; self.stations()]];
        for &p in order {
            let mut next = moments[moments.len() - 1].clone();
            next[p] += 1;
            moments.push(next);
        }
        moments
    }

    // ---- By marks ----

    // "For all stations p and q, p not q: count q in the stamp of p's event c_p is at most c_q."
    fn consistent(&self, cut: &[usize]) -> bool {
        (0..self.stations()).all(|p| {
            let seen: &[usize] = if cut[p] == 0 { &[] } else { &self.0[p].events[cut[p] - 1].stamp };
            seen.iter().enumerate().all(|(q, &count)| p == q || count <= cut[q])
        })
    }

    // Every cut in rank order: whether it is consistent and satisfies, and whether an avoiding way leads to it.
    fn by_marks(&self, condition: &Condition) -> Verdicts {
        let n = self.stations();
        let weights: Vec<usize> = (0..n).map(|p| self.weight(p)).collect();
        let cuts = self.cuts() as usize;
        let mut avoided = vec![false; cuts];
        let mut witness = None;
        for rank in 0..cuts {
            let cut = self.cut(rank, &weights);
            if !self.consistent(&cut) {
                continue;
            }
            if self.satisfies(&cut, condition) {
                witness = witness.or(Some(cut));
            } else {
                avoided[rank] = rank == 0 || (0..n).any(|p| cut[p] > 0 && avoided[rank - weights[p]]);
            }
        }
        let avoiding = avoided[cuts - 1].then(|| self.way_back(&weights, &avoided));
        Verdicts { witness, avoiding }
    }

    // From the full cut back to the start, by the lowest station each time: "read from its end, comes first in dictionary order".
    fn way_back(&self, weights: &[usize], avoided: &[bool]) -> Vec<usize> {
        let mut cut: Vec<usize> = (0..self.stations()).map(|p| self.m(p)).collect();
        let mut path = Vec::new();
        while cut.iter().any(|&count| count > 0) {
            let rank = self.rank(&cut);
            let p = (0..cut.len()).find(|&p| cut[p] > 0 && avoided[rank - weights[p]]).expect("an avoiding way");
            cut[p] -= 1;
            path.push(p + 1);
        }
        path.reverse();
        path
    }
}
