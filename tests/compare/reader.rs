//! The independent reader's side of the comparison: takes requests from standard input and writes the
//! answers to standard output. request.rs says what they are.

mod fields;
#[path = "../independent/mod.rs"]
mod independent;

use fields::{Give, Take, Visited, SLOTS_LENGTH};
use independent::Slots;
use std::io::{self, BufReader, Read, StdinLock, Write};

/// The answer of bruskelde_fields where the row is too short.
const ROOM: u32 = 10;

/// The longest row, that of kind 155.
const MOST_NUMBERS: usize = 313;

struct Payload {
    kind: u64,
    size: u64,
    bytes: Vec<u8>,
}

struct Server {
    requests: BufReader<StdinLock<'static>>,
    answers: Vec<u8>,
    slots: Slots,
}

fn main() -> io::Result<()> {
    let mut server = Server {
        requests: BufReader::new(io::stdin().lock()),
        answers: Vec::new(),
        slots: Slots::start(),
    };
    while let Some(letter) = server.letter()? {
        server.serve(letter)?;
    }
    Ok(())
}

impl Server {
    fn serve(&mut self, letter: u8) -> io::Result<()> {
        match letter {
            b'r' => self.read(),
            b'b' => self.start(),
            b'v' => self.set_slots(),
            b'o' => self.call(Slots::open),
            b'c' => self.call(Slots::close),
            b's' => self.call(Slots::sequence),
            b'f' => self.feed(),
            b'p' => self.picture(),
            b't' => self.table(),
            b'.' => self.send(),
            _ => Err(io::ErrorKind::InvalidInput.into()),
        }
    }

    fn read(&mut self) -> io::Result<()> {
        let payload = self.take_payload()?;
        let mut lent = self.take_rows()?;
        let answer = independent::read(payload.kind, payload.size, &payload.bytes);
        let mut row = [0; MOST_NUMBERS];
        let length = independent::write_row(&answer, &mut row);
        let number = match lent.get_mut(..length) {
            Some(place) => {
                place.copy_from_slice(&row[..length]);
                answer.number
            }
            None => ROOM,
        };
        let part = independent::part(&answer);
        self.give_number(answer.number);
        self.give_number(number);
        self.give_number(part.offset);
        self.give_number(part.length);
        self.give_rows(&lent);
        Ok(())
    }

    fn start(&mut self) -> io::Result<()> {
        self.slots = Slots::start();
        self.give_number(independent::TAKEN);
        self.give_slots();
        Ok(())
    }

    fn set_slots(&mut self) -> io::Result<()> {
        self.take_number()?; // the padding, of which these slots have none
        let bytes = self.take_bytes(SLOTS_LENGTH)?;
        self.slots.visit(&mut Take(&bytes));
        Ok(())
    }

    fn call(&mut self, call: fn(&mut Slots, u64) -> u32) -> io::Result<()> {
        let slot = self.take_number()?;
        let number = call(&mut self.slots, slot);
        self.give_number(number);
        self.give_slots();
        Ok(())
    }

    fn feed(&mut self) -> io::Result<()> {
        let slot = self.take_number()?;
        let payload = self.take_payload()?;
        let fed = self
            .slots
            .feed(slot, payload.kind, payload.size, &payload.bytes);
        self.give_number(fed.number);
        self.give_number(fed.extension);
        self.give_slots();
        Ok(())
    }

    fn picture(&mut self) -> io::Result<()> {
        let slot = self.take_number()?;
        let mut pictured = self.slots.picture(slot);
        self.give_number(pictured.number);
        pictured.held.visit(&mut Give(&mut self.answers));
        self.give_slots();
        Ok(())
    }

    fn table(&mut self) -> io::Result<()> {
        let slot = self.take_number()?;
        let mut lent = self.take_rows()?;
        let tabled = self.slots.table(slot, &mut lent);
        self.give_number(tabled.number);
        self.give_number(tabled.rows);
        self.give_rows(&lent);
        Ok(())
    }

    fn send(&mut self) -> io::Result<()> {
        io::stdout().write_all(&self.answers)?;
        io::stdout().flush()?;
        self.answers.clear();
        Ok(())
    }

    fn letter(&mut self) -> io::Result<Option<u8>> {
        let mut letter = [0];
        Ok((self.requests.read(&mut letter)? == 1).then_some(letter[0]))
    }

    fn take_number(&mut self) -> io::Result<u64> {
        let mut bytes = [0; 8];
        self.requests.read_exact(&mut bytes)?;
        Ok(u64::from_le_bytes(bytes))
    }

    fn take_bytes(&mut self, count: usize) -> io::Result<Vec<u8>> {
        let mut bytes = vec![0; count];
        self.requests.read_exact(&mut bytes)?;
        Ok(bytes)
    }

    fn take_payload(&mut self) -> io::Result<Payload> {
        let kind = self.take_number()?;
        let size = self.take_number()?;
        let count = self.take_number()? as usize;
        let bytes = self.take_bytes(count)?;
        Ok(Payload { kind, size, bytes })
    }

    fn take_rows(&mut self) -> io::Result<Vec<u64>> {
        let count = self.take_number()?;
        let first = self.take_number()?;
        Ok((0..count).map(|place| first.wrapping_add(place)).collect())
    }

    fn give_number(&mut self, number: impl Into<u64>) {
        self.answers.extend(number.into().to_le_bytes());
    }

    fn give_rows(&mut self, rows: &[u64]) {
        for number in rows {
            self.give_number(*number);
        }
    }

    fn give_slots(&mut self) {
        self.slots.visit(&mut Give(&mut self.answers));
    }
}
