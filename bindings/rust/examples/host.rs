//! A small host of one site, which keeps to the order that the theorems rest on: persist, then send, then reply.
//!
//!     host FOLDER GROUP REPLICA first|again [TIME] <MESSAGES >SENT
//!
//! FOLDER keeps the site. MESSAGES are messages in a row; with TIME a tick of that time comes after them. What goes to
//! sites is written to the standard output, what goes to coordinators is appended to FOLDER/replies, and a line on the
//! standard error tells of each entry that is committed. Exit status 1: the site must not go on.

use std::error::Error;
use std::fs::{rename, File, OpenOptions};
use std::io::{self, Read, Write};
use std::path::PathBuf;

use jallumere::{
    core, digest, entry, field, message_length, messages, order, start, step, version, write, Core, Field, Kind, Message,
    Refusal, Sizes, DIGEST_START, OUTSIDE, VERSION,
};

/// The sizes of the register, the same at every site.
const SIZES: Sizes = Sizes { sites: 3, groups: 1, capacity: 256 };

type Outcome = Result<(), Box<dyn Error>>;

/// What is kept on the disk is what lies in memory: a digest, the state and what the last step sent. The messages are
/// kept with the state, so that a site that fell over between the disk and the network sends them when it is back.
struct Site {
    folder: PathBuf,
    group: u64,
    replica: u64,
    state: Vec<u8>,
    out: Vec<u8>,
    sent: usize,
    applied: u64,
}

impl Site {
    fn new(folder: PathBuf, group: u64, replica: u64) -> Site {
        let length = SIZES.state_length().expect("the sizes are right");
        Site { folder, group, replica, state: vec![0; length], out: vec![0; SIZES.room()], sent: 0, applied: 0 }
    }

    fn digest(&self) -> [u8; 8] {
        digest(digest(DIGEST_START, &self.state), &self.out[..self.sent]).to_le_bytes()
    }

    /// After this the site's new state outlives a loss of power; before it, the old one does.
    fn persist(&self) -> Outcome {
        let (new, kept) = (self.folder.join("site.new"), self.folder.join("site"));
        let mut file = File::create(&new)?;
        file.write_all(&self.digest())?;
        file.write_all(&self.state)?;
        file.write_all(&self.out[..self.sent])?;
        file.sync_all()?;
        rename(new, kept)?;
        Ok(File::open(&self.folder)?.sync_all()?)
    }

    /// The site's first start ever: where a file is there, or was, it is not the first.
    fn begin(&mut self) -> Outcome {
        if self.folder.join("site").exists() {
            return Err("the site's file is there, so this is not its first start".into());
        }
        start(SIZES, self.group, self.replica, &mut self.state)?;
        self.persist()
    }

    /// A good state need not be the one that was stored, so the digest decides, and then the core. One of a core before
    /// interface 2.1 is put in order here; a good one stays as it is.
    fn load(&mut self) -> Outcome {
        let kept = std::fs::read(self.folder.join("site")).map_err(|error| {
            format!("the site's file: {error}; a site that has lost its state stays out and is never started afresh")
        })?;
        let rest = kept.len().checked_sub(8 + self.state.len()).ok_or("the site's file is too short")?;
        let (told, bytes) = kept.split_at(8);
        let (state, out) = bytes.split_at(self.state.len());
        self.sent = rest.min(self.out.len());
        self.state.copy_from_slice(state);
        self.out[..self.sent].copy_from_slice(&out[..self.sent]);
        if rest != self.sent || told != self.digest() {
            return Err("the site's file is not what was written".into());
        }
        let good = order(SIZES, &mut self.state).is_ok();
        let own = |named| field(SIZES, named, &self.state);
        if !good || own(Field::Group) != Some(self.group) || own(Field::Replica) != Some(self.replica) {
            return Err("the file is no good state of this site".into());
        }
        Ok(())
    }

    /// Messages for sites go to the standard output, then those for coordinators to their file.
    fn send_and_reply(&self) -> Outcome {
        let outside = |message: &&[u8]| u64::from(message[1]) == OUTSIDE;
        let sent = || messages(SIZES, &self.out[..self.sent]);
        let mut network = io::stdout().lock();
        for message in sent().filter(|message| !outside(message)) {
            network.write_all(message)?;
        }
        network.flush()?;
        let mut replies = OpenOptions::new().create(true).append(true).open(self.folder.join("replies"))?;
        for message in sent().filter(outside) {
            replies.write_all(message)?;
        }
        Ok(())
    }

    /// What is applied lives in memory here, so it is applied again from the first entry when the host starts.
    fn apply_committed(&mut self) {
        let commit = field(SIZES, Field::CommitPoint, &self.state).unwrap_or(0);
        while self.applied < commit {
            self.applied += 1;
            if let Some(committed) = entry(SIZES, self.applied, &self.state) {
                eprintln!("committed {}: command {}", self.applied, committed.command);
            }
        }
    }

    /// After a refusal every byte is as it was, so there is nothing to persist and nothing to send.
    fn take(&mut self, message: &[u8]) -> Outcome {
        match step(SIZES, &mut self.state, message, &mut self.out) {
            Ok(sent) => {
                self.sent = sent;
                self.persist()?;
                self.send_and_reply()?;
                self.apply_committed();
                Ok(())
            }
            Err(Refusal::WrongState) => Err("the state in memory is not good".into()),
            Err(refusal) => {
                eprintln!("refused with {}: a message of kind {}: {refusal}", refusal.number(), message[0]);
                Ok(())
            }
        }
    }

    /// The host alone makes ticks: from outside, for this site, the time as the only number.
    fn tick(&mut self, time: u64) -> Outcome {
        let message = Message { numbers: &[time], ..Message::from_outside(Kind::Tick, self.group, 1 << self.replica) };
        let mut bytes = [0; 64];
        let length = write(SIZES, &message, &mut bytes)?;
        self.take(&bytes[..length])
    }

    /// The standard input holds whole messages.
    fn take_input(&mut self) -> Outcome {
        let (mut held, mut piece) = (Vec::new(), [0; 4096]);
        loop {
            let got = io::stdin().read(&mut piece)?;
            held.extend_from_slice(&piece[..got]);
            while let Some(length) = message_length(SIZES, &held) {
                self.take(&held[..length])?;
                held.drain(..length);
            }
            if got == 0 {
                return if held.is_empty() { Ok(()) } else { Err("the input ends in what is no message".into()) };
            }
        }
    }
}

fn run(words: &[String]) -> Outcome {
    let (folder, group, replica, word, time) = match words {
        [folder, group, replica, word] => (folder, group, replica, word, None),
        [folder, group, replica, word, time] => (folder, group, replica, word, Some(time.parse()?)),
        _ => return Err("usage: host FOLDER GROUP REPLICA first|again [TIME] <MESSAGES >SENT".into()),
    };
    if version() / 10_000 != VERSION / 10_000 {
        return Err("the core that is linked has another interface".into());
    }
    if core() == Core::Model {
        eprintln!("host: the core is the C model, which is not proved");
    }
    let mut own = Site::new(folder.into(), group.parse()?, replica.parse()?);
    match word.as_str() {
        "first" => own.begin()?,
        "again" => own.load()?,
        _ => return Err("a site's start is its first, or it starts again".into()),
    }
    own.send_and_reply()?;
    own.apply_committed();
    own.take_input()?;
    time.map_or(Ok(()), |time| own.tick(time))
}

fn main() {
    let words: Vec<String> = std::env::args().skip(1).collect();
    if let Err(error) = run(&words) {
        eprintln!("host: {error}");
        std::process::exit(1);
    }
}
