//! Writes requests in the layout of tests/README.md.

use crate::edits::{Drawing, Step};
use crate::handed::Handed;
use std::io::{self, BufWriter, Stdout, Write};

/// As tests/README.md says.
const MOST_BYTES: usize = 100_000;
const MOST_ENTRIES: usize = 8_192;

pub struct Asker {
    target: BufWriter<Stdout>,
    letters: String,
    pub asked: u64,
}

/// A request while it is put together.
struct Request(Vec<u8>);

impl Request {
    fn number(&mut self, bytes: usize, value: u64) {
        self.0.extend_from_slice(&value.to_le_bytes()[..bytes]);
    }

    fn bytes(&mut self, bytes: &[u8]) {
        assert!(bytes.len() <= MOST_BYTES, "a program that answers may have room for so many bytes only");
        self.number(4, bytes.len() as u64);
        self.0.extend_from_slice(bytes);
    }

    fn table(&mut self, table: &[u16]) {
        assert!(table.len() <= MOST_ENTRIES, "a program that answers may have room for so many entries only");
        self.number(4, table.len() as u64);
        for entry in table {
            self.0.extend_from_slice(&entry.to_le_bytes());
        }
    }

    fn machine(&mut self, handed: &Handed) {
        for value in [handed.states, handed.actions, handed.boxes, handed.start] {
            self.number(8, value);
        }
        self.0.extend_from_slice(&handed.owners);
    }

    fn model(&mut self, handed: &Handed) {
        self.machine(handed);
        for id in handed.ids {
            self.number(4, u64::from(id));
        }
        self.0.extend(handed.arrows.map(u8::from));
    }

    fn numbers(&mut self, numbers: &[u32]) {
        for &number in numbers {
            self.number(4, u64::from(number));
        }
    }

    fn drawing(&mut self, drawing: &Drawing) {
        self.number(4, drawing.records.len() as u64);
        for record in &drawing.records {
            self.numbers(record);
        }
        self.number(4, drawing.history.len() as u64);
        self.numbers(&drawing.history);
        self.numbers(&[drawing.edits]);
    }

    /// What a kind doesn't use is not looked at.
    fn step(&mut self, step: Step) {
        const UNUSED: u32 = 0xA5A5_A5A5;
        let (kind, first, second) = match step {
            Step::Add(id) => (1, id, UNUSED),
            Step::Delete(id) => (2, id, UNUSED),
            Step::Draw(source, target) => (3, source, target),
            Step::Erase(source, target) => (4, source, target),
            Step::Undo => (5, UNUSED, UNUSED),
            Step::Drop => (6, UNUSED, UNUSED),
            Step::WriteList(place, number) => (7, place, number),
            Step::WriteHistory(place, number) => (8, place, number),
            Step::WriteCount(number) => (9, UNUSED, number),
        };
        self.number(1, kind);
        self.numbers(&[first, second]);
    }
}

impl Asker {
    /// Requests with other letters than these are left out.
    pub fn new(letters: &str) -> Asker {
        Asker { target: BufWriter::new(io::stdout()), letters: letters.to_string(), asked: 0 }
    }

    pub fn flush(&mut self) -> io::Result<()> {
        self.target.flush()
    }

    fn ask(&mut self, letter: u8, fill: impl FnOnce(&mut Request)) -> io::Result<()> {
        if !self.letters.as_bytes().contains(&letter) {
            return Ok(());
        }
        let mut request = Request(vec![letter]);
        fill(&mut request);
        self.asked += 1;
        self.target.write_all(&request.0)
    }

    pub fn verdict(&mut self, text: &[u8], room: usize) -> io::Result<()> {
        self.ask(b'V', |request| {
            request.bytes(text);
            request.number(4, room as u64);
        })
    }

    /// The counts of the lent next-state, output and view tables.
    pub fn read(&mut self, text: &[u8], counts: [usize; 3]) -> io::Result<()> {
        self.ask(b'R', |request| {
            request.bytes(text);
            for count in counts {
                request.number(4, count as u64);
            }
        })
    }

    pub fn label(&mut self, text: &[u8], position: u64) -> io::Result<()> {
        self.ask(b'L', |request| {
            request.bytes(text);
            request.number(8, position);
        })
    }

    pub fn judge(&mut self, handed: &Handed) -> io::Result<()> {
        self.ask(b'J', |request| {
            request.model(handed);
            request.table(&handed.next);
            request.table(&handed.outputs);
            request.table(&handed.views);
        })
    }

    pub fn needed(&mut self, handed: &Handed, list: usize) -> io::Result<()> {
        self.ask(b'N', |request| {
            request.machine(handed);
            request.table(&handed.next);
            request.table(&handed.outputs);
            request.number(4, list as u64);
        })
    }

    pub fn reached(&mut self, handed: &Handed) -> io::Result<()> {
        self.ask(b'S', |request| {
            request.machine(handed);
            request.table(&handed.next);
        })
    }

    /// Both kinds, one after the other.
    pub fn purge(&mut self, handed: &Handed, position: u64, run: &[u8], room: usize) -> io::Result<()> {
        for kind in 0..2 {
            self.ask(b'P', |request| {
                request.model(handed);
                request.number(1, kind);
                request.number(8, position);
                request.bytes(run);
                request.number(4, room as u64);
            })?;
        }
        Ok(())
    }
    pub fn edits(&mut self, drawing: &Drawing, steps: &[Step]) -> io::Result<()> {
        self.ask(b'E', |request| {
            request.drawing(drawing);
            request.number(4, steps.len() as u64);
            for &step in steps {
                request.step(step);
            }
        })
    }
}
