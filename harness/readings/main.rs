//! Compares the program `counter` with a second one, written from the meaning alone, on random scripts. The
//! second one looks at every subset of the rows that are in conflicts, and at every choice of rows for a rule.
//! The seeds are fixed, so that a run can be repeated.
//!
//! Arguments: the program, and a number of scripts for each seed.

mod counter;
#[path = "../dice.rs"]
mod dice;
mod language;
mod plans;
mod rows;
mod scripts;

use dice::Dice;
use scripts::{script, Script};
use std::io::{Read, Write};
use std::process::{Command, ExitCode, Stdio};
use std::sync::mpsc::channel;
use std::thread::spawn;
use std::time::Duration;

const SEEDS: [u64; 4] = [1, 7, 2024, 0xBADC_0FFE];
const SCRIPTS: usize = 250;

/// Where a script is left that is answered otherwise than it should be.
const LEFT: &str = "target/harness_readings.script";

/// A program that takes longer over a script is stopped.
const PATIENCE: Duration = Duration::from_secs(60);

/// No more bytes than these are read of what it prints.
const MOST_BYTES: u64 = 1 << 24;

/// What the program prints of a script, and how it ended where it did not end well.
fn printed(program: &str, text: &[u8]) -> std::io::Result<(Vec<u8>, Option<String>)> {
    let mut child = Command::new(program).stdin(Stdio::piped()).stdout(Stdio::piped()).spawn()?;
    let (mut input, output) = (child.stdin.take().unwrap(), child.stdout.take().unwrap());
    let text = text.to_vec();
    // A program that stops early is told by its status, not by the write that it fails.
    let writer = spawn(move || {
        let _ = input.write_all(&text);
    });
    let (sender, receiver) = channel();
    let reader = spawn(move || {
        let mut bytes = Vec::new();
        let read = output.take(MOST_BYTES).read_to_end(&mut bytes);
        let _ = sender.send(());
        read.map(|_| bytes)
    });
    let late = receiver.recv_timeout(PATIENCE).is_err();
    if late {
        child.kill()?;
    }
    let status = child.wait()?;
    writer.join().unwrap();
    let bytes = reader.join().unwrap()?;
    let ended = if late {
        Some(format!("stopped after {} seconds", PATIENCE.as_secs()))
    } else if status.success() {
        None
    } else {
        Some(status.to_string())
    };
    Ok((bytes, ended))
}

/// The script and both outputs, each line with its number, and the first line that is not answered as it should be.
fn show(script: &Script, bytes: &[u8]) {
    let numbered = |title: &str, text: &[u8]| {
        println!("--- {title}");
        for (at, line) in text.strip_suffix(b"\n").unwrap_or(text).split(|byte| *byte == b'\n').enumerate() {
            println!("{:4} {}", at + 1, line.escape_ascii());
        }
    };
    numbered(&format!("the script, as it stands in {LEFT}"), &script.text);
    numbered("what the program prints", bytes);
    numbered("what it should print", script.words.concat().as_bytes());
    let mut rest = bytes;
    for (at, words) in script.words.iter().enumerate() {
        let Some(behind) = rest.strip_prefix(words.as_bytes()) else {
            println!("--- line {} of the script should print {:?}", at + 1, words);
            return;
        };
        rest = behind;
    }
}

/// The refusals that have to be met, and 0 for a line that is not refused.
const TO_MEET: [u32; 22] = [0, 1, 2, 3, 4, 11, 12, 13, 14, 15, 16, 21, 22, 23, 24, 25, 31, 33, 34, 41, 42, 45];

fn main() -> ExitCode {
    let arguments: Vec<String> = std::env::args().skip(1).collect();
    let program = arguments.first().expect("the first argument is the program");
    let scripts = arguments.iter().find_map(|argument| argument.parse().ok()).unwrap_or(SCRIPTS);
    let mut met = [0usize; 256];
    for seed in SEEDS {
        let mut dice = Dice(seed);
        for turn in 0..scripts {
            let script = script(&mut dice);
            let (bytes, ended) = printed(program, &script.text).expect("the program runs");
            if bytes != script.words.concat().as_bytes() || ended.is_some() {
                std::fs::write(LEFT, &script.text).expect("the script is left");
                show(&script, &bytes);
                println!("seed {seed}, script {turn}: 1 difference{}", ended.map_or(String::new(), |how| format!(", {how}")));
                return ExitCode::FAILURE;
            }
            for number in script.met {
                met[number as usize] += 1;
            }
        }
    }
    let seldom: Vec<u32> = TO_MEET.into_iter().filter(|number| met[*number as usize] < 10).collect();
    if !seldom.is_empty() {
        println!("refusals that were met less than 10 times: {seldom:?}");
        return ExitCode::FAILURE;
    }
    let counts: Vec<String> = TO_MEET.iter().skip(1).map(|number| format!("{number}: {}", met[*number as usize])).collect();
    println!("{} scripts, 0 differences; lines not refused {}, refused {}", SEEDS.len() * scripts, met[0], counts.join(", "));
    ExitCode::SUCCESS
}
