//! Asks two programs the same requests and holds their answers to each other.

use crate::stream::{Message, Part};
use std::fs::{self, File};
use std::io::{self, BufReader, Read};
use std::process::{Child, ChildStdout, Command, Stdio};

/// A program that answers the requests of a file.
pub struct Speaker {
    command: String,
    child: Child,
    pub answers: BufReader<ChildStdout>,
}

impl Speaker {
    /// The command's words are parted by blanks.
    pub fn start(command: &str, requests: &str) -> io::Result<Speaker> {
        let mut words = command.split(' ');
        let mut child = Command::new(words.next().unwrap_or_default())
            .args(words)
            .stdin(File::open(requests)?)
            .stdout(Stdio::piped())
            .spawn()
            .map_err(|error| io::Error::new(error.kind(), format!("{command}: {error}")))?;
        let answers = BufReader::with_capacity(1 << 16, child.stdout.take().expect("its output was piped"));
        Ok(Speaker { command: command.to_string(), child, answers })
    }

    /// Nothing may follow the last answer, and the program has to end well.
    pub fn end(mut self) -> io::Result<()> {
        let mut rest = Vec::new();
        self.answers.read_to_end(&mut rest)?;
        let status = self.child.wait()?;
        if rest.is_empty() && status.success() {
            return Ok(());
        }
        Err(io::Error::other(format!("{}: {} bytes after the last answer, {status}", self.command, rest.len())))
    }

    fn stop(mut self) {
        // It may have ended by itself.
        let _ = self.child.kill();
        let _ = self.child.wait();
    }
}

fn show_request(index: u64, request: &Message) {
    println!("request {index} (counted from 0), letter {}", request.letter as char);
    for part in &request.parts {
        println!("{}", part.shown());
    }
}

/// The parts that differ, whole, and where each begins to.
fn show_different_parts(commands: [&str; 2], first: &[Part], second: &[Part]) {
    for (one, other) in first.iter().zip(second).filter(|(one, other)| one != other) {
        let place = one.values.iter().zip(&other.values).position(|(one, other)| one != other);
        let place = place.unwrap_or(one.values.len().min(other.values.len()));
        println!("the answers differ in {} from entry {place} on", one.name);
        for (command, part) in [(commands[0], one), (commands[1], other)] {
            println!("{command}: {}", part.shown());
        }
    }
}

/// The first step that is answered differently, the drawing before it, and the answers' parts that differ.
fn show_different_step(commands: [&str; 2], request: &Message, first: &Message, second: &Message) {
    let mut before = &request.parts[..];
    for (place, (step, (one, other))) in request.steps_asked().iter().zip(first.steps_answered().zip(second.steps_answered())).enumerate() {
        if one != other {
            println!("step {place}, {}, on", step.shown());
            for part in before.iter().filter(|part| !["number", "steps"].contains(&part.name)) {
                println!("{}", part.shown());
            }
            show_different_parts(commands, one, other);
            return;
        }
        before = one;
    }
}

fn show_difference(commands: [&str; 2], request: &Message, answers: &[io::Result<Message>; 2]) {
    match answers {
        [Ok(first), Ok(second)] if request.letter == b'E' => show_different_step(commands, request, first, second),
        [Ok(first), Ok(second)] => show_different_parts(commands, &first.parts, &second.parts),
        _ => {}
    }
    for (command, answer) in commands.iter().zip(answers) {
        match answer {
            // The verdict call's refusal stands in its text, and those of edits in their steps.
            Ok(message) if [b'V', b'E'].contains(&message.letter) => {}
            Ok(message) => println!("{command}: refusal {}, line {}", message.value("number"), message.value("line")),
            Err(error) => println!("{command}: no whole answer: {error}"),
        }
    }
}

/// How many requests there are, and how many calls they ask for: of edits each is a call.
#[derive(Default)]
pub struct Counts {
    pub requests: u64,
    pub calls: u64,
}

impl Counts {
    fn add(&mut self, request: &Message) {
        self.requests += 1;
        self.calls += match request.letter {
            b'E' => request.steps_asked().iter().filter(|step| step.call().is_some()).count() as u64,
            _ => 1,
        };
    }
}

/// What was answered alike, or none where something was not; the first request that was not is left in a file beside the requests.
pub fn compare(requests: &str, commands: [&str; 2]) -> io::Result<Option<Counts>> {
    let mut source = BufReader::with_capacity(1 << 16, File::open(requests)?);
    let mut first = Speaker::start(commands[0], requests)?;
    let mut second = Speaker::start(commands[1], requests)?;
    let mut counts = Counts::default();
    while let Some(request) = Message::request(&mut source)? {
        let answers = [Message::answer(&mut first.answers, &request), Message::answer(&mut second.answers, &request)];
        let alike = matches!(&answers, [Ok(first), Ok(second)] if first.raw == second.raw);
        if !alike {
            show_request(counts.requests, &request);
            show_difference(commands, &request, &answers);
            let left = format!("{requests}.difference");
            fs::write(&left, &request.raw)?;
            println!("the request alone: {left}");
            first.stop();
            second.stop();
            return Ok(None);
        }
        counts.add(&request);
    }
    first.end()?;
    second.end()?;
    Ok(Some(counts))
}
