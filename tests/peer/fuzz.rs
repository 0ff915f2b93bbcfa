// The cases of the door given to a program that makes the calls (tests/door/fuzz.c says how they stand in its input): its replies are compared,
// and counted by number.
use crate::calls::{self, Case};
use crate::door::{Door, Kind, Lent, Reply};
use crate::trace::hex;
use crate::{say, start};
use std::io::{self, BufReader, BufWriter, Read, Write};
use std::sync::mpsc::{sync_channel, SyncSender};

/// How often a number has to come from each call that can give it.
const LEAST: u64 = 50;

/// The calls in the order of their kinds, and the numbers that each can give.
const CALLS: [(&str, &[usize]); 6] = [
    ("load", &[0, 1, 2, 3, 4, 5, 6, 12]),
    ("store", &[0, 1, 2, 3, 4, 5, 6, 7, 12, 20]),
    ("begin", &[0, 1, 2, 3, 4, 5, 8, 12, 20]),
    ("step", &[0, 1, 2, 3, 4, 5, 9, 12, 20]),
    ("format", &[0, 1, 2, 12, 20]),
    ("recover", &[0, 1, 2, 10, 11, 12, NO_REGISTERS]),
];
/// In the place of DONE for a recovery that says there are no registers.
const NO_REGISTERS: usize = 21;
const PARTS: [&str; 5] = ["memory", "cache", "table", "record", "bytes"];

/// How often each call gave each number.
type Counts = [[u64; NO_REGISTERS + 1]; CALLS.len()];

/// A case, its place, and what the right door makes of it.
struct Expected {
    run: u64,
    index: usize,
    case: Case,
    reply: Reply,
    after: Lent,
}

pub fn compare(seed: u64, runs: u64, program: &str, args: &[&str]) -> io::Result<bool> {
    let mut child = start(program, args)?;
    let (input, output) = (child.stdin.take(), child.stdout.take());
    let (Some(input), Some(output)) = (input, output) else { return Err(io::Error::other("no pipe")) };
    let (sender, receiver) = sync_channel(1000);
    // A program that stops reading shows in its output.
    let writer = std::thread::spawn(move || write_cases(&mut BufWriter::new(input), seed, runs, &sender));
    let mut output = BufReader::new(output);
    let mut counts: Counts = Default::default();
    let mut cases = 0;
    for expected in receiver {
        if let Some(difference) = difference(&mut output, &expected) {
            child.kill()?;
            child.wait()?;
            say(&format!("case {} of run {} of seed {seed}: {difference}", expected.index, expected.run))?;
            say(&shown(&expected.case))?;
            return Ok(false);
        }
        count(&mut counts, &expected);
        cases += 1;
    }
    let mut more = Vec::new();
    output.read_to_end(&mut more)?;
    let written = writer.join();
    let status = child.wait()?;
    if !more.is_empty() || !status.success() || !matches!(written, Ok(Ok(()))) {
        say(&format!("after {cases} cases: {} bytes too many, {status}", more.len()))?;
        return Ok(false);
    }
    let enough = say_counts(&counts)?;
    if enough {
        say(&format!("{cases} cases agree"))?;
    }
    Ok(enough)
}

fn write_cases(output: &mut impl Write, seed: u64, runs: u64, sender: &SyncSender<Expected>) -> io::Result<()> {
    for run in 0..runs {
        for (index, case) in calls::run(seed, run).into_iter().enumerate() {
            output.write_all(&head(&case))?;
            for part in case.lent.parts() {
                output.write_all(part)?;
            }
            let mut after = case.lent.clone();
            let reply = Door { fault: None }.call(case.call, &mut after);
            sender.send(Expected { run, index, case, reply, after }).map_err(io::Error::other)?;
        }
    }
    output.flush()
}

/// The `struct head` of tests/door/fuzz.c.
fn head(case: &Case) -> Vec<u8> {
    let mut bytes = vec![case.call.kind as u8, case.shift, case.call.fill, case.guard];
    bytes.extend(case.lent.parts().iter().flat_map(|part| (part.len() as u32).to_le_bytes()));
    bytes.extend(case.call.numbers.iter().flat_map(|number| number.to_le_bytes()));
    bytes
}

/// Reads a `struct reply` and the buffers; says how they differ from what is expected, if they do.
fn difference(output: &mut impl Read, expected: &Expected) -> Option<String> {
    let mut numbers = [0; 4];
    for number in &mut numbers {
        let mut word = [0; 8];
        if output.read_exact(&mut word).is_err() {
            return Some("no reply".into());
        }
        *number = u64::from_le_bytes(word);
    }
    let [number, words, registers, touched] = numbers;
    let reply = Reply { number, words, registers };
    if reply != expected.reply {
        return Some(format!("expected {:?}, found {reply:?}", expected.reply));
    }
    if touched != 0 {
        return Some(format!("bytes beside the buffers changed, {touched:#b}"));
    }
    for (name, part) in PARTS.into_iter().zip(expected.after.parts()) {
        let mut found = vec![0; part.len()];
        if output.read_exact(&mut found).is_err() {
            return Some(format!("no {name}"));
        }
        if let Some(at) = (0..part.len()).find(|&at| found[at] != part[at]) {
            return Some(format!("{:?}, {name} byte {at}: expected {}, found {}", reply, part[at], found[at]));
        }
    }
    None
}

fn shown(case: &Case) -> String {
    let lengths = PARTS.iter().zip(case.lent.parts()).map(|(name, part)| format!("{name} {}", part.len()));
    let lengths: Vec<String> = lengths.collect();
    format!("{:?}\nlengths: {}\nrecord: {}", case.call, lengths.join(", "), hex(&case.lent.record))
}

fn count(counts: &mut Counts, expected: &Expected) {
    let kind = expected.case.call.kind;
    let absent = kind == Kind::Recover && expected.reply.number == 0 && expected.reply.registers == 0;
    let number = if absent { NO_REGISTERS } else { expected.reply.number as usize };
    counts[kind as usize][number] += 1;
}

/// A line for each call; tells whether each number came often enough, and no other did.
fn say_counts(counts: &Counts) -> io::Result<bool> {
    let mut enough = true;
    for ((name, numbers), counts) in CALLS.iter().zip(counts) {
        let mut line = format!("{name}:");
        for (number, &count) in counts.iter().enumerate() {
            let possible = numbers.contains(&number);
            if possible {
                let label = if number == NO_REGISTERS { "0 without registers".into() } else { number.to_string() };
                line += &format!(" {label}: {count},");
            }
            if possible && count < LEAST || !possible && count > 0 {
                say(&format!("{name} gives number {number} {count} times"))?;
                enough = false;
            }
        }
        say(line.trim_end_matches(','))?;
    }
    Ok(enough)
}
