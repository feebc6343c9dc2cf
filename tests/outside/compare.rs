// compare JOBS SEED LAW PROGRAM [ARGUMENT ..]
// Hands the same jobs to two programs of the form of `batch`, the second implementation of document 01 (LAW) and the proved one (PROGRAM), and compares
// their replies; then tries streams that end early or come in pieces. Prints how often each refusal and each pair of verdicts occurred.
// The status is 0 if every reply is the same and each of those occurred; else 1, and a job on which the replies differ is printed in hex, made small.
mod jobs;
mod shrink;

use std::collections::BTreeMap;
use std::io::{Read, Write};
use std::process::{Child, Command, ExitCode, Stdio};
use std::thread;
use std::time::{Duration, Instant};

type Jobs = [Vec<u8>];

fn main() -> ExitCode {
    let words: Vec<String> = std::env::args().skip(1).collect();
    let (count, seed) = match (words.first().map(|w| w.parse()), words.get(1).map(|w| w.parse())) {
        (Some(Ok(count)), Some(Ok(seed))) if words.len() > 3 => (count, seed),
        _ => {
            eprintln!("usage: compare JOBS SEED LAW PROGRAM [ARGUMENT ..]");
            return ExitCode::from(2);
        }
    };
    let both = Programs { law: words[2..3].to_vec(), proved: words[3..].to_vec() };
    let result = many(&both, count, seed).and_then(|()| settled(&both)).and_then(|()| streams(&both, seed));
    match result {
        Ok(()) => ExitCode::SUCCESS,
        Err(said) => {
            println!("{said}");
            ExitCode::FAILURE
        }
    }
}

struct Programs {
    law: Vec<String>,
    proved: Vec<String>,
}

// ---- Running a program ----

fn start(command: &[String]) -> Child {
    let made = Command::new(&command[0]).args(&command[1..]).stdin(Stdio::piped()).stdout(Stdio::piped()).spawn();
    made.unwrap_or_else(|e| panic!("{}: {e}", command[0]))
}

// Each job behind its length in two bytes, high first.
fn stream(jobs: &Jobs) -> Vec<u8> {
    jobs.iter().flat_map(|job| (job.len() as u16).to_be_bytes().into_iter().chain(job.iter().copied())).collect()
}

// What a program prints for a stream, and whether it ended well.
fn printed(command: &[String], stream: Vec<u8>) -> (String, bool) {
    let mut child = start(command);
    let mut input = child.stdin.take().unwrap();
    let writer = thread::spawn(move || input.write_all(&stream).is_ok());
    let mut text = String::new();
    child.stdout.take().unwrap().read_to_string(&mut text).expect("text");
    let written = writer.join().unwrap();
    (text, child.wait().expect("its end").success() && written)
}

// The replies in a text: each is followed by an empty line.
fn replies(text: &str) -> Vec<String> {
    let mut found: Vec<String> = text.split("\n\n").map(|reply| format!("{reply}\n")).collect();
    found.pop();
    found
}

// The replies of both programs, at the same time.
fn both_reply(both: &Programs, jobs: &Jobs) -> Result<(Vec<String>, Vec<String>), String> {
    let (bytes, command) = (stream(jobs), both.law.clone());
    let other = thread::spawn(move || printed(&command, bytes));
    let proved = printed(&both.proved, stream(jobs));
    Ok((complete(jobs, "the second implementation", other.join().unwrap())?, complete(jobs, "the program", proved)?))
}

// One reply for each job, and a good end; else the job at which the program stopped.
fn complete(jobs: &Jobs, name: &str, (text, well): (String, bool)) -> Result<Vec<String>, String> {
    let found = replies(&text);
    if found.len() < jobs.len() {
        return Err(format!("MISMATCH: {name} stopped at job {}\n{}", found.len(), hex(&jobs[found.len()])));
    }
    if !well || found.len() > jobs.len() || !(text.is_empty() || text.ends_with("\n\n")) {
        return Err(format!("MISMATCH: {name} ended badly, with {} replies to {} jobs", found.len(), jobs.len()));
    }
    Ok(found)
}

fn hex(job: &[u8]) -> String {
    job.iter().map(|byte| format!("{byte:02x}")).collect()
}

// ---- The settled examples ----

// The jobs of document 01's settled examples whose bytes it gives, and the replies that it gives.
fn settled(both: &Programs) -> Result<(), String> {
    let sum = [vec![0x80, 0, 1, 0, 1, 0xC0], vec![0; 32]].concat();
    let sum_of_none = [vec![0x80, 0, 1, 0, 1, 0], vec![0; 32]].concat();
    let none = vec![0; 38];
    let at = |first: u8, second: u8| [vec![0, 0, 0, 0, 0, 0xC0, 0, first, 0, first, 0, second, 0, second], vec![0; 24]].concat();
    let a = [0x20, 0x10, 0, 1, 0, 0, 0, 0, 0x10, 0x10, 1, 1, 0, 0x10, 0x10, 0x10];
    let b = [0x20, 0x10, 0, 1, 0, 0, 0, 0, 0x10, 0x10, 0, 0, 0, 0x10, 0, 0x10];
    let e = [0x10, 0, 0];
    let nine = [0x20, 0x10, 0, 1, 0, 0, 0, 0, 0x10, 0x10, 1, 1, 0, 0x10, 0, 0x10];
    let ten = [0x20, 0x10, 0, 1, 0, 2, 1, 0, 0, 0x10, 0x11, 1, 0, 0, 0x10, 0x10];
    let table: Vec<(Vec<u8>, &str)> = vec![
        ([&sum[..], &a].concat(), "poss yes 1 0\ndef yes\n"),
        ([&sum[..], &b].concat(), "poss yes 1 0\ndef yes\n"),
        ([&at(1, 0)[..], &b].concat(), "poss yes 1 0\ndef no 2 1\n"),
        ([&at(1, 0)[..], &a].concat(), "poss yes 1 0\ndef yes\n"),
        ([&at(0, 1)[..], &a].concat(), "poss no\ndef no 1 2\n"),
        ([&at(0, 1)[..], &b].concat(), "poss yes 0 1\ndef no 1 2\n"),
        ([&none[..], &e].concat(), "poss yes 0\ndef yes\n"),
        ([&sum_of_none[..], &e].concat(), "poss no\ndef no\n"),
        ([&sum[..], &nine].concat(), "refused 7 2 1\n"),
        ([&sum[..], &ten].concat(), "refused 7 1 1\n"),
    ];
    let jobs: Vec<Vec<u8>> = table.iter().map(|row| row.0.clone()).collect();
    let (law, proved) = both_reply(both, &jobs)?;
    for (i, row) in table.iter().enumerate() {
        if law[i] != row.1 || proved[i] != row.1 {
            return Err(format!("MISMATCH: settled example {}\n{}expected\n{}the second implementation\n{}the program", i + 1, row.1, law[i], proved[i]));
        }
    }
    println!("settled examples 1 to 10: as document 01 has them");
    Ok(())
}

// ---- Many jobs ----

fn many(both: &Programs, count: usize, seed: u64) -> Result<(), String> {
    let began = Instant::now();
    let jobs = jobs::jobs(count, seed);
    let (law, proved) = both_reply(both, &jobs)?;
    let differ: Vec<usize> = (0..jobs.len()).filter(|&i| law[i] != proved[i]).collect();
    if let Some(&first) = differ.iter().min_by_key(|&&i| shrink::size(&jobs[i])) {
        return Err(format!("MISMATCH: {} of {count} replies differ, seed {seed}\n{}", differ.len(), smallest(both, jobs[first].clone())?));
    }
    let missing = table(&proved);
    let bytes: usize = jobs.iter().map(Vec::len).sum();
    let (tried, pairs, took) = (jobs::pairs_tried(count), jobs::pairs(), began.elapsed().as_secs_f64());
    println!("{count} jobs of seed {seed}, {bytes} bytes, {tried} pairs of faults of {pairs}: every reply the same, in {took:.0} s");
    if missing.is_empty() { Ok(()) } else { Err(format!("MISMATCH: these never occurred: {}", missing.join(", "))) }
}

// How often each refusal and each pair of verdicts occurred; those that should have, and did not.
fn table(replies: &[String]) -> Vec<String> {
    let mut times: BTreeMap<String, usize> = BTreeMap::new();
    for reply in replies {
        *times.entry(kind(reply)).or_default() += 1;
    }
    let refusals = (1..=10).map(|number| format!("refused {number}"));
    let verdicts = ["poss yes, def yes", "poss yes, def no", "poss no, def no"].map(str::to_string);
    let expected: Vec<String> = refusals.chain(verdicts).collect();
    println!("reply                 times");
    for name in &expected {
        println!("{name:20} {:6}", times.get(name).copied().unwrap_or(0));
    }
    for name in times.keys().filter(|name| !expected.contains(name)) {
        println!("{name:20} {:6}, and is not to be expected", times[name]);
    }
    expected.into_iter().filter(|name| !times.contains_key(name)).collect()
}

fn kind(reply: &str) -> String {
    let words: Vec<Vec<&str>> = reply.lines().map(|line| line.split(' ').take(2).collect()).collect();
    words.iter().map(|line| line.join(" ")).collect::<Vec<_>>().join(", ")
}

// The smallest job that smaller steps lead to and on which the two still differ, with both replies.
fn smallest(both: &Programs, first: Vec<u8>) -> Result<String, String> {
    let mut job = first;
    loop {
        let tries = shrink::smaller(&job);
        let (law, proved) = both_reply(both, &tries)?;
        match (0..tries.len()).find(|&i| law[i] != proved[i]) {
            Some(i) => job = tries[i].clone(),
            None => break,
        }
    }
    let (law, proved) = both_reply(both, std::slice::from_ref(&job))?;
    Ok(format!("the smallest found, {} bytes in hex\n{}\nthe second implementation replies\n{}the program replies\n{}", job.len(), hex(&job), law[0], proved[0]))
}

// ---- Streams ----

fn streams(both: &Programs, seed: u64) -> Result<(), String> {
    let few: Vec<Vec<u8>> = jobs::jobs(400, seed).into_iter().filter(|job| job.len() < 80).take(12).collect();
    random(both, seed)?;
    same_stream(both, "an empty stream", Vec::new(), 0)?;
    cut_short(both, &few)?;
    byte_by_byte(both, &few)?;
    one_at_a_time(both, &few)
}

// "also run 1,000 jobs of random bytes"
fn random(both: &Programs, seed: u64) -> Result<(), String> {
    let jobs: Vec<Vec<u8>> = (0..1_000).map(|i| jobs::random_bytes(&mut jobs::Dice::new(seed + 1, i))).collect();
    let (law, proved) = both_reply(both, &jobs)?;
    match (0..jobs.len()).find(|&i| law[i] != proved[i]) {
        Some(i) => Err(format!("MISMATCH: random bytes\n{}", smallest(both, jobs[i].clone())?)),
        None => {
            println!("1000 jobs of random bytes: the same");
            Ok(())
        }
    }
}

// Both programs print the same for a stream, and so many replies.
fn same_stream(both: &Programs, name: &str, stream: Vec<u8>, jobs: usize) -> Result<(), String> {
    let (law, proved) = (printed(&both.law, stream.clone()), printed(&both.proved, stream.clone()));
    if law != proved || !proved.1 || replies(&proved.0).len() != jobs {
        return Err(format!("MISMATCH: {name}\n{}\nthe second implementation\n{}the program\n{}", hex(&stream), law.0, proved.0));
    }
    println!("{name}: the same");
    Ok(())
}

// The stream's end within a length, behind it, within a job, and before a job's last byte.
fn cut_short(both: &Programs, jobs: &Jobs) -> Result<(), String> {
    let last = jobs.last().unwrap().len() + 2;
    let whole = stream(jobs);
    for (name, left) in [("a length cut short", 1), ("a length and no job", 2), ("a job cut short", 2 + 40.min(last - 3)), ("a job without its last byte", last - 1)] {
        same_stream(both, name, whole[..whole.len() - last + left].to_vec(), jobs.len())?;
    }
    Ok(())
}

// Each byte alone: after the first reply, which shows that the program is waiting for the next byte, with a pause before each.
fn byte_by_byte(both: &Programs, jobs: &Jobs) -> Result<(), String> {
    let expected = printed(&both.law, stream(jobs)).0;
    let mut child = start(&both.proved);
    let (mut input, mut output) = (child.stdin.take().unwrap(), child.stdout.take().unwrap());
    let mut text = send(&mut input, &mut output, &jobs[0]);
    for byte in stream(&jobs[1..]) {
        input.write_all(&[byte]).expect("a byte taken");
        input.flush().expect("a byte taken");
        thread::sleep(Duration::from_millis(1));
    }
    drop(input);
    output.read_to_string(&mut text).expect("text");
    told("a stream byte by byte", child.wait().expect("its end").success() && text == expected)
}

// Each job only after the reply to the one before: no reply waits for the input's end.
fn one_at_a_time(both: &Programs, jobs: &Jobs) -> Result<(), String> {
    let expected = printed(&both.law, stream(jobs)).0;
    let mut child = start(&both.proved);
    let (mut input, mut output) = (child.stdin.take().unwrap(), child.stdout.take().unwrap());
    let text: String = jobs.iter().map(|job| send(&mut input, &mut output, job)).collect();
    drop(input);
    told("a stream job by job, each after the reply before", child.wait().expect("its end").success() && text == expected)
}

// Sends one job and waits for its reply.
fn send(input: &mut impl Write, output: &mut impl Read, job: &[u8]) -> String {
    input.write_all(&stream(&[job.to_vec()])).expect("a job taken");
    input.flush().expect("a job taken");
    let mut text = Vec::new();
    let mut byte = [0];
    while !text.ends_with(b"\n\n") && output.read(&mut byte).expect("text") == 1 {
        text.push(byte[0]);
    }
    String::from_utf8(text).expect("text")
}

fn told(name: &str, same: bool) -> Result<(), String> {
    if !same {
        return Err(format!("MISMATCH: {name}"));
    }
    println!("{name}: the same");
    Ok(())
}
