// Smaller jobs than a given one, to find the smallest on which two programs still differ: with an event, a station, a message or a number less where the
// bytes can be read as a job, and with a byte or a bit less in any case.
use crate::jobs::{Condition, Job, Record, Station};

// Shorter is smaller, then fewer bits that are 1, then earlier in dictionary order.
pub fn size(job: &[u8]) -> (usize, u32, Vec<u8>) {
    (job.len(), job.iter().map(|b| b.count_ones()).sum(), job.to_vec())
}

// The smaller jobs that are one change away, the smallest first.
pub fn smaller(bytes: &[u8]) -> Vec<Vec<u8>> {
    let mut found = Vec::new();
    if let Some(job) = unpack(bytes) {
        found.extend(simpler(&job).iter().map(Job::pack));
    }
    for i in 0..bytes.len().min(400) {
        let mut less = bytes.to_vec();
        less.remove(i);
        found.push(less);
        for bit in 0..8 {
            if bytes[i] >> bit & 1 == 1 {
                let mut less = bytes.to_vec();
                less[i] ^= 1 << bit;
                found.push(less);
            }
        }
    }
    if !bytes.is_empty() {
        found.push(bytes[..bytes.len() / 2].to_vec());
        found.push(bytes[..bytes.len() - 1].to_vec());
    }
    found.retain(|job| size(job) < size(bytes));
    found.sort_by_key(|job| size(job));
    found.dedup();
    found
}

struct Fields<'a>(&'a [u8], usize);

impl Fields<'_> {
    fn next(&mut self, bits: usize) -> usize {
        (0..bits).fold(0, |value, _| {
            let byte = self.0.get(self.1 / 8).copied().unwrap_or(0);
            let bit = byte >> (7 - self.1 % 8) & 1;
            self.1 += 1;
            value * 2 + usize::from(bit)
        })
    }

    fn signed(&mut self, bits: usize) -> i64 {
        let value = self.next(bits) as i64;
        value - if value >= 1 << (bits - 1) { 1 << bits } else { 0 }
    }
}

// The bytes as a job, if n is 1 to 8 and they are as many as its counts need, or more.
fn unpack(bytes: &[u8]) -> Option<Job> {
    let fields = &mut Fields(bytes, 0);
    let condition = Condition {
        kind: fields.next(2),
        k: fields.next(6),
        low: fields.signed(16),
        high: fields.signed(16),
        asked: std::array::from_fn(|_| fields.next(1) == 1),
        windows: std::array::from_fn(|_| (fields.signed(16), fields.signed(16))),
    };
    let n = fields.next(4);
    if n == 0 || n > 8 {
        return None;
    }
    let heads: Vec<(usize, i64)> = (0..n).map(|_| (fields.next(8), fields.signed(12))).collect();
    let mut stations = Vec::new();
    for (m, start) in heads {
        let records = (0..m).map(|_| Record {
            origin: fields.next(4),
            number: fields.next(8),
            level: fields.signed(12),
            stamp: (0..n).map(|_| fields.next(8)).collect(),
        });
        stations.push(Station { start, records: records.collect() });
    }
    let padding = fields.next((8 - fields.1 % 8) % 8);
    let behind = bytes.get(fields.1 / 8..)?.to_vec();
    Some(Job { condition, n, stations, padding, behind, most: usize::MAX })
}

// Each with its stamps as they are, and with those that follow from its messages.
fn simpler(job: &Job) -> Vec<Job> {
    let mut found = Vec::new();
    for p in 0..job.stations.len() {
        let fewer = without_station(job, p);
        found.extend((p..fewer.stations.len()).map(|q| without_station(&fewer, q)));
        found.push(fewer);
        found.push(unasked(job, p));
        for e in 0..job.stations[p].records.len() {
            found.push(without_event(job, p, e));
            let mut local = job.clone();
            (local.stations[p].records[e].origin, local.stations[p].records[e].number) = (0, 0);
            found.push(local);
            let mut lower = job.clone();
            lower.stations[p].records[e].level = 0;
            found.push(lower);
        }
    }
    let stamped: Vec<Job> = found.iter().cloned().filter_map(|mut job| job.stamp().then_some(job)).collect();
    found.extend(stamped);
    found.extend(other_numbers(job));
    found
}

// Numbers that are not smaller in every bit, but simpler: a window or a pair of one value, 0 or 1.
fn other_numbers(job: &Job) -> Vec<Job> {
    let mut found = Vec::new();
    for value in [(0, 0), (0, 1), (1, 1)] {
        let mut pair = job.clone();
        (pair.condition.low, pair.condition.high) = value;
        found.push(pair);
        for p in 0..8 {
            let mut window = job.clone();
            window.condition.windows[p] = value;
            found.push(window);
        }
    }
    for p in 0..job.stations.len() {
        let mut start = job.clone();
        start.stations[p].start = 0;
        found.push(start);
    }
    found
}

fn unasked(job: &Job, p: usize) -> Job {
    let mut less = job.clone();
    less.condition.asked[p] = false;
    less.condition.windows[p] = (0, 0);
    less
}

// Without an event: what named it is a local step, later ones of its station are one less.
fn without_event(job: &Job, p: usize, e: usize) -> Job {
    let mut less = job.clone();
    less.stations[p].records.remove(e);
    for record in less.stations.iter_mut().flat_map(|s| &mut s.records) {
        if record.origin == p + 1 && record.number == e + 1 {
            (record.origin, record.number) = (0, 0);
        } else if record.origin == p + 1 && record.number > e {
            record.number -= 1;
        }
        if record.stamp[p] > e {
            record.stamp[p] -= 1;
        }
    }
    less
}

fn without_station(job: &Job, p: usize) -> Job {
    let mut less = job.clone();
    less.stations.remove(p);
    less.n = less.stations.len();
    for record in less.stations.iter_mut().flat_map(|s| &mut s.records) {
        record.stamp.remove(p);
        if record.origin == p + 1 {
            (record.origin, record.number) = (0, 0);
        } else if record.origin > p {
            record.origin -= 1;
        }
    }
    for q in p..8 {
        less.condition.asked[q] = job.condition.asked.get(q + 1).copied().unwrap_or(false);
        less.condition.windows[q] = job.condition.windows.get(q + 1).copied().unwrap_or((0, 0));
    }
    less
}
