//! A process that takes requests and gives answers, the library's or the reader's.

use std::io::{self, BufReader, Read, Write};
use std::process::{Child, ChildStdin, ChildStdout, Command, Stdio};
use std::sync::mpsc::{sync_channel, Receiver, SyncSender};
use std::sync::Arc;
use std::thread;

/// How many blocks of requests may wait; a thread of its own writes them, so that pipes cannot block
/// each other.
const WAITING_BLOCKS: usize = 2;

pub struct Process {
    child: Child,
    requests: Option<SyncSender<Arc<Vec<u8>>>>,
    answers: BufReader<ChildStdout>,
}

impl Process {
    pub fn start(command: &mut Command) -> io::Result<Self> {
        let mut child = command
            .stdin(Stdio::piped())
            .stdout(Stdio::piped())
            .spawn()?;
        let (Some(input), Some(output)) = (child.stdin.take(), child.stdout.take()) else {
            return Err(io::ErrorKind::BrokenPipe.into());
        };
        let (sender, receiver) = sync_channel(WAITING_BLOCKS);
        thread::spawn(move || write_blocks(&receiver, input));
        Ok(Process {
            child,
            requests: Some(sender),
            answers: BufReader::with_capacity(1 << 16, output),
        })
    }

    /// A process that has ended takes no requests any more; that is seen when its answers are taken.
    pub fn send(&self, block: &Arc<Vec<u8>>) {
        if let Some(requests) = &self.requests {
            let _ = requests.send(Arc::clone(block));
        }
    }

    /// The next answer, or None where the process has ended.
    pub fn take(&mut self, length: usize) -> Option<Vec<u8>> {
        let mut answer = vec![0; length];
        self.answers.read_exact(&mut answer).ok()?;
        Some(answer)
    }
}

impl Drop for Process {
    fn drop(&mut self) {
        self.requests = None;
        let _ = self.child.kill();
        let _ = self.child.wait();
    }
}

fn write_blocks(blocks: &Receiver<Arc<Vec<u8>>>, mut input: ChildStdin) {
    for block in blocks {
        if input.write_all(&block).is_err() {
            return;
        }
    }
}
