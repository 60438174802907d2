//! Sends the same requests to the library and to the reader, and holds their answers against each other.

use crate::inputs::{block, PAYLOADS_A_BLOCK};
use crate::processes::Process;
use crate::report::Difference;
use crate::request::{self, Request};
use crate::tally::Tally;
use crate::Options;
use std::path::Path;
use std::process::Command;
use std::sync::Arc;
use std::{io, mem};

#[derive(Default)]
pub struct Comparison {
    pub tally: Tally,
    pub difference: Option<Box<Difference>>,
    /// How many requests were answered alike.
    alike: u64,
    /// The slots after them, as they stand on a pipe.
    slots: Vec<u8>,
}

/// Compares until the payloads are through or an answer differs.
pub fn compare(options: &Options, reader: &Path) -> io::Result<Comparison> {
    let mut pair = Pair::start(options, reader)?;
    let mut comparison = Comparison::default();
    let mut sent = None;
    let blocks = options.payloads.div_ceil(PAYLOADS_A_BLOCK);
    for number in 0..=blocks {
        let next = (number < blocks).then(|| block(options.seed, number));
        if let Some(requests) = &next {
            pair.send(requests);
        }
        // The answers looked at are those to the block before, so that nobody waits for a block to be drawn.
        for request in mem::replace(&mut sent, next).into_iter().flatten() {
            let (library, reader) = pair.take(&request);
            comparison.add(request, library, reader);
            if comparison.difference.is_some() {
                return Ok(comparison);
            }
        }
    }
    Ok(comparison)
}

type Answer = Option<Vec<u8>>;

impl Comparison {
    fn add(&mut self, request: Request, library: Answer, reader: Answer) {
        match library {
            Some(answer) if reader.as_ref() == Some(&answer) => {
                self.tally.count(&request, &self.slots, &answer);
                self.alike += 1;
                if let Some(slots) = request.slots_after(&answer) {
                    self.slots = slots.to_vec();
                }
            }
            library => {
                self.difference = Some(Box::new(Difference {
                    index: self.alike,
                    slots: mem::take(&mut self.slots),
                    request,
                    library,
                    reader,
                }));
            }
        }
    }
}

/// The library's process and the reader's, or that of a variant.
struct Pair {
    library: Process,
    reader: Process,
}

impl Pair {
    fn start(options: &Options, reader: &Path) -> io::Result<Self> {
        let mut library = Command::new(options.tests.join("x86"));
        library.arg("run").arg(options.built.join("bridge"));
        Ok(Pair {
            library: Process::start(&mut library)?,
            reader: Process::start(&mut Command::new(reader))?,
        })
    }

    fn send(&self, requests: &[Request]) {
        let block = Arc::new(written(requests));
        self.library.send(&block);
        self.reader.send(&block);
    }

    fn take(&mut self, request: &Request) -> (Answer, Answer) {
        let length = request.answer_length();
        (self.library.take(length), self.reader.take(length))
    }
}

fn written(requests: &[Request]) -> Vec<u8> {
    let mut bytes = Vec::new();
    for request in requests {
        request.write(&mut bytes);
    }
    bytes.push(request::SEND);
    bytes
}
