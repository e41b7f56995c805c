//! What the proved program does, in plain Rust: the same works on the same inputs with the same answers, for
//! `.ci/benchmarks`. Out of memory it ends, as plain Rust does.
//!
//! The words are the count of rounds, the name of a work, and perhaps of how many copies of a set it is; or one of
//! `show`, `check`, `build`, `explain`, `enumerate`, `enumerate --speed SPEED`, `decode`, `describe`, `hexadecimal`, `capture` and `walk`,
//! which write what comes of it. The input is standard input.

mod assembly;
mod bus;
mod conversation;
mod device;
mod explain;
mod file;
mod frames;
mod heard;
mod hexadecimal;
mod host;
mod listing;
mod names;
mod numbers;
mod packet;
mod recording;
mod rules;
mod set;
mod speed;
mod text;
mod walk;
mod works;

use std::fmt::Write as _;
use std::io::{self, Read, Write};
use std::process::ExitCode;

/// What is written, and the exit status; or a line for standard error.
type Written = Result<(Vec<u8>, u8), String>;

fn set_fault(fault: set::SetFault) -> String {
    format!("set fault {} at {}", fault.why as u8, fault.at)
}

fn read_file(input: &[u8]) -> Result<file::DescriptorFile, String> {
    file::read_file(input).map_err(|it| format!("file fault {} at {}", it.why as u8, it.at))
}

fn show(input: &[u8]) -> Written {
    let mut text = Vec::new();
    if matches!(input, [_, set::CONFIGURATION | set::OTHER_SPEED, ..]) {
        let (set, used) = set::read_set(input).map_err(set_fault)?;
        if used < input.len() {
            return Err(format!("trailing bytes at {used}"));
        }
        listing::list_set(&set, &mut text);
    } else {
        listing::list(&read_file(input)?, &mut text);
    }
    Ok((text, 0))
}

fn check(input: &[u8]) -> Written {
    let findings = rules::check(&read_file(input)?);
    if findings.is_empty() {
        return Ok((b"no findings\n".to_vec(), 0));
    }
    let mut text = String::new();
    for it in findings {
        let part = ["device", "main", "other"][it.part as usize];
        let _ = writeln!(text, "V{} {part} {} {} {}", it.rule, it.set, it.setting, it.endpoint);
    }
    Ok((text.into_bytes(), 1))
}

fn build(input: &[u8]) -> Written {
    match assembly::assemble(input) {
        Ok(file) => Ok((file::write_file(&file).ok_or("no bytes")?, 0)),
        Err(it) => Err(format!("listing fault {} line {}", it.why as u8, it.line)),
    }
}

fn enumerate(speed: device::Speed, input: &[u8]) -> Written {
    let limits = host::Limits { address: 1, naks: 16, attempts: 3 };
    let description = match device::Description::new(read_file(input)?, speed) {
        Ok(description) => description,
        Err(device::DescriptionFault::Finding(it)) => {
            let part = ["device", "main", "other"][it.part as usize];
            let place = format!("{part} {} {} {}", it.set, it.setting, it.endpoint);
            return Ok((format!("refused 1 V{} {place}\n", it.rule).into_bytes(), 1));
        }
        Err(device::DescriptionFault::Texts) => return Ok((b"refused 2\n".to_vec(), 1)),
        Err(device::DescriptionFault::Speed) => return Ok((b"refused 3\n".to_vec(), 1)),
        Err(device::DescriptionFault::Unwritable) => return Ok((b"refused 5\n".to_vec(), 1)),
    };
    let run = bus::enumerate(&description, limits, speed);
    let file = run.outcome.ok_or("no end")?.map_err(|why| format!("trouble {}", why as u8))?;
    let value = file.sets.first().map_or(0, |set| set.value);
    let counts = format!("attempts {} transactions {}", run.attempts, run.transactions);
    let mut text = format!("success {counts} address 1 value {value}\n").into_bytes();
    listing::list(&file, &mut text);
    Ok((text, 0))
}

/// A set decoded byte by byte and encoded again, or a file read and written again.
fn decode(input: &[u8]) -> Written {
    let bytes = if matches!(input, [_, set::CONFIGURATION | set::OTHER_SPEED, ..]) {
        set::encode(&works::decoded(input, 1).map_err(set_fault)?)
    } else {
        file::write_file(&read_file(input)?)
    };
    Ok((bytes.ok_or("no bytes")?, 0))
}

/// What a device of the file sends of each descriptor, which together is the file.
fn describe(input: &[u8]) -> Written {
    let file = read_file(input)?;
    let description = device::Description::new(file, device::Speed::Full).map_err(|it| format!("{it:?}"))?;
    Ok((description.all_bytes().to_vec(), 0))
}

/// Of a whole set, file or dump.
fn explain(input: &[u8]) -> Written {
    Ok((explain::explain(input, &works::read_input(input)?), 0))
}

fn hexadecimal(input: &[u8]) -> Written {
    let bytes =
        hexadecimal::read(input).map_err(|it| format!("hexadecimal fault line {} column {}", it.line, it.column))?;
    Ok((bytes, 0))
}

/// Of each descriptor as far as they can be walked over.
fn walk(input: &[u8]) -> Written {
    let (count, sum) = walk::sum_of(input);
    Ok((format!("{count} descriptors, sum {sum:x}\n").into_bytes(), 0))
}

fn capture(input: &[u8]) -> Written {
    let told = recording::tell(input, works::PIECE).map_err(|(why, at)| format!("capture fault {why} at {at}"))?;
    Ok((told.0, told.1.into()))
}

fn measure(rounds: &str, name: &str, copies: &str, input: &[u8]) -> Written {
    let number = |word: &str| word.parse().map_err(|_| format!("no number {word}"));
    let count = works::run(name, input, number(copies)?, number(rounds)?)?;
    Ok((format!("{name}: {count} bytes, {rounds} rounds\n").into_bytes(), 0))
}

fn write(words: &[&str], input: &[u8]) -> Written {
    match words {
        ["show"] => show(input),
        ["check"] => check(input),
        ["build"] => build(input),
        ["explain"] => explain(input),
        ["enumerate", "--speed", "low"] => enumerate(device::Speed::Low, input),
        ["enumerate"] | ["enumerate", "--speed", "full"] => enumerate(device::Speed::Full, input),
        ["enumerate", "--speed", "high"] => enumerate(device::Speed::High, input),
        ["decode"] => decode(input),
        ["describe"] => describe(input),
        ["hexadecimal"] => hexadecimal(input),
        ["walk"] => walk(input),
        ["capture"] => capture(input),
        [rounds, name] => measure(rounds, name, "1", input),
        [rounds, name, copies] => measure(rounds, name, copies, input),
        _ => Err("no such words".into()),
    }
}

/// The longest file, and for `build` and the works the longest listing.
const LONGEST: [usize; 2] = [41_584_152, 268_435_456];

fn main() -> io::Result<ExitCode> {
    let words: Vec<String> = std::env::args().skip(1).collect();
    let words: Vec<&str> = words.iter().map(String::as_str).collect();
    let is_of_file = matches!(words[..], ["show" | "check" | "explain" | "enumerate", ..]);
    let limit = LONGEST[usize::from(!is_of_file)];
    let mut input = Vec::new();
    io::stdin().lock().take(limit as u64 + 1).read_to_end(&mut input)?;
    if input.len() > limit {
        eprintln!("usbdesc: input too large");
        return Ok(ExitCode::from(3));
    }
    match write(&words, &input) {
        Ok((bytes, status)) => {
            io::stdout().lock().write_all(&bytes)?;
            Ok(ExitCode::from(status))
        }
        Err(line) => {
            eprintln!("usbdesc: {line}");
            Ok(ExitCode::from(3))
        }
    }
}
