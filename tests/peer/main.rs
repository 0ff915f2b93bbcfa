// The independent peer of the board and of its door: its modes, and the comparison with a program.
#![forbid(unsafe_code)]

mod board;
mod calls;
#[cfg(test)]
mod cases;
mod damage;
mod door;
#[cfg(test)]
mod door_cases;
mod fuzz;
mod make;
mod parts;
mod random;
mod spoil;
mod trace;
mod wrong;

use std::io::{self, BufRead, BufReader, BufWriter, Read, Write};
use std::process::{Child, Command, ExitCode, Stdio};

const USAGE: &str = "usage: peer bench | batch | make SEED COUNT | compare SEED COUNT COMMAND.. | single SEED COUNT COMMAND.. | wrong
            | fuzz SEED RUNS COMMAND.. | wrong-doors
  bench        a trace on standard input, its lines out
  batch        frames on standard input (a trace's length in 4 bytes, big-endian, then the trace); after each one's lines a line '.'
  make         writes COUNT frames
  compare      gives COUNT frames to one run of COMMAND, which works as batch does
  single       gives COUNT traces to a run of COMMAND each, which works as bench does
  wrong        the fourteen wrong boards must each be found out
  fuzz         gives the cases of RUNS runs to one run of COMMAND, which works as tests/door/fuzz.c does
  wrong-doors  the twenty wrong doors must each be found out";

/// The frames of `peer wrong`, and the runs of `peer wrong-doors`.
const WRONG_SEED: u64 = 1;
const WRONG_COUNT: u64 = 3000;

fn main() -> ExitCode {
    let words: Vec<String> = std::env::args_os().skip(1).map(|word| word.to_string_lossy().into_owned()).collect();
    let words: Vec<&str> = words.iter().map(String::as_str).collect();
    match mode(&words) {
        Ok(true) => ExitCode::SUCCESS,
        Ok(false) => ExitCode::FAILURE,
        Err(error) => {
            let _ = writeln!(io::stderr(), "peer: {error}");
            ExitCode::from(2)
        }
    }
}

fn mode(words: &[&str]) -> io::Result<bool> {
    match *words {
        ["bench"] => bench(),
        ["batch"] => batch(),
        ["make", seed, count] => write_frames(&mut BufWriter::new(io::stdout()), number(seed)?, number(count)?),
        ["compare", seed, count, program, ref args @ ..] => compare(number(seed)?, number(count)?, program, args),
        ["single", seed, count, program, ref args @ ..] => single(number(seed)?, number(count)?, program, args),
        ["wrong"] => report(wrong::report(WRONG_SEED, WRONG_COUNT)),
        ["fuzz", seed, runs, program, ref args @ ..] => fuzz::compare(number(seed)?, number(runs)?, program, args),
        ["wrong-doors"] => report(wrong::report_doors(WRONG_SEED, WRONG_COUNT)),
        _ => Err(io::Error::other(USAGE)),
    }
}

fn report((lines, all): (String, bool)) -> io::Result<bool> {
    io::stdout().write_all(lines.as_bytes())?;
    Ok(all)
}

fn number(word: &str) -> io::Result<u64> {
    word.parse().map_err(|_| io::Error::other(format!("'{word}' is not a number")))
}

fn bench() -> io::Result<bool> {
    let mut bytes = Vec::new();
    io::stdin().read_to_end(&mut bytes)?;
    io::stdout().write_all(trace::run(&bytes, None).as_bytes())?;
    Ok(true)
}

fn batch() -> io::Result<bool> {
    let mut input = BufReader::new(io::stdin());
    let mut output = BufWriter::new(io::stdout());
    while !input.fill_buf()?.is_empty() {
        let mut length = [0; 4];
        input.read_exact(&mut length)?;
        let length = u64::from(u32::from_be_bytes(length));
        let mut bytes = Vec::new();
        if input.by_ref().take(length).read_to_end(&mut bytes)? as u64 != length {
            return Err(io::Error::other("a frame is cut short"));
        }
        output.write_all(trace::run(&bytes, None).as_bytes())?;
        output.write_all(b".\n")?;
    }
    output.flush()?;
    Ok(true)
}

fn write_frames(output: &mut impl Write, seed: u64, count: u64) -> io::Result<bool> {
    for index in 0..count {
        let bytes = make::trace(seed, index);
        output.write_all(&(bytes.len() as u32).to_be_bytes())?;
        output.write_all(&bytes)?;
    }
    output.flush()?;
    Ok(true)
}

fn start(program: &str, args: &[&str]) -> io::Result<Child> {
    let mut command = Command::new(program);
    command.args(args).stdin(Stdio::piped()).stdout(Stdio::piped());
    command.spawn().map_err(|error| io::Error::other(format!("{program}: {error}")))
}

fn compare(seed: u64, count: u64, program: &str, args: &[&str]) -> io::Result<bool> {
    let mut child = start(program, args)?;
    let (input, output) = (child.stdin.take(), child.stdout.take());
    let (Some(input), Some(output)) = (input, output) else { return Err(io::Error::other("no pipe")) };
    // A program that stops reading shows in its output.
    let writer = std::thread::spawn(move || write_frames(&mut BufWriter::new(input), seed, count));
    let mut output = BufReader::new(output);
    for index in 0..count {
        let found = read_frame(&mut output)?;
        if !agrees(seed, index, ".\n", &found)? {
            child.kill()?;
            child.wait()?;
            return Ok(false);
        }
    }
    let mut more = Vec::new();
    output.read_to_end(&mut more)?;
    let written = writer.join();
    let status = child.wait()?;
    if !more.is_empty() || !status.success() || !matches!(written, Ok(Ok(_))) {
        say(&format!("after {count} traces: {} bytes too many, {status}", more.len()))?;
        return Ok(false);
    }
    say(&format!("{count} traces agree"))?;
    Ok(true)
}

/// The bytes up to the next line '.', with it, or to the end.
fn read_frame(output: &mut impl BufRead) -> io::Result<Vec<u8>> {
    let mut frame = Vec::new();
    loop {
        let start = frame.len();
        output.read_until(b'\n', &mut frame)?;
        if frame.len() == start || &frame[start..] == b".\n" {
            return Ok(frame);
        }
    }
}

fn single(seed: u64, count: u64, program: &str, args: &[&str]) -> io::Result<bool> {
    for index in 0..count {
        let mut child = start(program, args)?;
        let input = child.stdin.take();
        let writer = std::thread::spawn(move || input.map(|mut input| input.write_all(&make::trace(seed, index))));
        let found = child.wait_with_output()?;
        let _ = writer.join();
        if !agrees(seed, index, "", &found.stdout)? {
            return Ok(false);
        }
        if !found.status.success() {
            say(&format!("trace {index} of seed {seed}: {}", found.status))?;
            return Ok(false);
        }
    }
    say(&format!("{count} traces agree, one run each"))?;
    Ok(true)
}

/// Holds what was found for a trace to its own lines and the end given; says where they part.
fn agrees(seed: u64, index: u64, end: &str, found: &[u8]) -> io::Result<bool> {
    let bytes = make::trace(seed, index);
    let expected = trace::run(&bytes, None) + end;
    if expected.as_bytes() == found {
        return Ok(true);
    }
    let found = String::from_utf8_lossy(found);
    let mut lines = expected.split_inclusive('\n').zip(found.split_inclusive('\n'));
    let same = lines.by_ref().take_while(|(expected, found)| expected == found).count();
    say(&format!("trace {index} of seed {seed} differs at line {}", same + 1))?;
    say(&format!("trace: {}", trace::hex_fields(&bytes)))?;
    for (name, text) in [("expected", &expected[..]), ("found", &found)] {
        say(&format!("{name}: {:?}", text.split_inclusive('\n').nth(same).unwrap_or("")))?;
    }
    Ok(false)
}

fn say(line: &str) -> io::Result<()> {
    writeln!(io::stdout(), "{line}")
}
