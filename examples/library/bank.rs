//! Answers a query text over a file of events, a line an answer: bank QUERIES EVENTS.

// A face of its own would be a crate; here what the program does not call is let pass.
#[allow(dead_code)]
#[path = "core.rs"]
mod engine;

use engine::{Answer, Answers, Engine, Fed};
use std::error::Error;
use std::process::ExitCode;

fn print(answers: Answers<'_>) -> Result<(), engine::Error> {
    for answer in answers {
        let Answer { query, start, end, positions } = answer?;
        let marked: Vec<String> = positions.iter().map(u64::to_string).collect();
        println!("{query} [{start},{end}] {{{}}}", marked.join(","));
    }
    Ok(())
}

/// A call for each line.
fn by_lines(engine: &mut Engine, events: &[u8]) -> Result<(), engine::Error> {
    for line in events.split(|byte| *byte == b'\n') {
        print(engine.feed(line)?)?;
    }
    Ok(())
}

/// Many lines a call.
fn by_bytes(engine: &mut Engine, mut events: &[u8]) -> Result<(), engine::Error> {
    loop {
        let (used, fed) = engine.feed_some(events);
        events = &events[used..];
        match fed? {
            Fed::Answers(answers) => print(answers)?,
            Fed::All => return Ok(()),
        }
    }
}

fn run(queries: &str, events: &str, many: bool) -> Result<(), Box<dyn Error>> {
    let mut engine = Engine::open(&std::fs::read_to_string(queries)?)?;
    let events = std::fs::read(events)?;
    if many { by_bytes(&mut engine, &events)? } else { by_lines(&mut engine, &events)? }
    if let Some(sizes) = engine.sizes(1) {
        eprintln!("{} events", sizes.events);
    }
    engine.compact()?;
    Ok(())
}

fn main() -> ExitCode {
    let words: Vec<String> = std::env::args().skip(1).collect();
    let (many, files) = match words.as_slice() {
        [many, files @ ..] if many == "--many" => (true, files),
        files => (false, files),
    };
    let [queries, events] = files else {
        eprintln!("usage: bank [--many] QUERIES EVENTS");
        return ExitCode::from(2);
    };
    match run(queries, events, many) {
        Ok(()) => ExitCode::SUCCESS,
        Err(error) => {
            eprintln!("{error}");
            ExitCode::FAILURE
        }
    }
}
