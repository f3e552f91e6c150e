//! The replica core as safe functions over slices.
//!
//! The core is one site of one group of the register. It has no memory of its own: the caller lends the state's
//! bytes, a message and an outgoing buffer, and a step makes the state the next state and writes what is to be
//! sent. A refusal leaves every byte as it came. `docs/HOSTS.md` of the repository is what a host has to know; the
//! example `host` keeps to it.
//!
//! Checking and documenting this crate needs no core. A program that calls it links `target/staticlib/libreplica.a` of
//! the repository, which `./jallumere simulate` proves and builds, or the archive or object that the environment
//! variable `JALLUMERE_CORE` names at build time, or with `JALLUMERE_CORE=model` the C model; where there is none, the
//! linker says so in the name of what it misses. [`core()`] tells which it is.
//!
//! ```
//! use jallumere::{field, messages, start, step, write, Field, Kind, Message, Sizes};
//!
//! let sizes = Sizes { sites: 3, groups: 1, capacity: 16 };
//! let mut state = vec![0; sizes.state_length().unwrap()];
//! start(sizes, 0, 1, &mut state).unwrap();
//!
//! // A tick: time 5 for group 0, site 1.
//! let tick = Message { numbers: &[5], ..Message::from_outside(Kind::Tick, 0, 0b010) };
//! let mut bytes = [0; 64];
//! let length = write(sizes, &tick, &mut bytes).unwrap();
//!
//! // A follower answers a tick with its sync point, to its leader.
//! let mut out = vec![0; sizes.room()];
//! let sent = step(sizes, &mut state, &bytes[..length], &mut out).unwrap();
//! let kinds: Vec<u8> = messages(sizes, &out[..sent]).map(|message| message[0]).collect();
//! assert_eq!(kinds, [10]);
//! assert_eq!(field(sizes, Field::Clock, &state), Some(5));
//! ```

mod names;
mod raw;

pub use names::{Answer, Core, Field, Kind, Refusal, Status};

/// The version of the interface that this crate is written for: major * 10000 + minor * 100 + patch.
pub const VERSION: u64 = 20_100;

/// Group and replica of whatever stands outside every group: coordinators, clocks, the view manager.
pub const OUTSIDE: u64 = 255;

/// Where a digest begins afresh: FNV-1a's offset basis, which is the digest of no bytes.
pub const DIGEST_START: u64 = 0xcbf2_9ce4_8422_2325;

/// The length of an entry in a log: timestamp 8, command 8, request 4, coordinator 2, mask 2.
pub const ENTRY_LENGTH: usize = 24;

/// The sizes that every site of a register shares. Wrong ones are refused with [`Refusal::WrongState`].
#[derive(Clone, Copy, Debug, PartialEq, Eq, Hash)]
pub struct Sizes {
    /// Sites in each group: 3, 5 or 7.
    pub sites: u64,
    /// Groups: 1 to 8.
    pub groups: u64,
    /// Entries of each table: 16 to 4,096. Reading and writing messages does not look at it.
    pub capacity: u64,
}

impl Sizes {
    /// The length of a state of these sizes, in bytes; none if one of them is wrong.
    pub fn state_length(self) -> Option<usize> {
        // SAFETY: takes and gives numbers alone.
        let length = unsafe { raw::jallumere_state_length(self.sites, self.groups, self.capacity) };
        usize::try_from(length).ok().filter(|&length| length != 0)
    }

    /// Room in an outgoing buffer that is never too short: what a leader sends that releases a full table at once.
    pub fn room(self) -> usize {
        (self.capacity.min(4_096) * (96 + 4 * self.groups.min(8)) + 24 + 4 * self.groups.min(8)) as usize
    }
}

/// Which core is linked: the proved one, or the C model.
pub fn core() -> Core {
    // SAFETY: takes nothing and gives a number.
    match unsafe { raw::jallumere_is_model() } {
        0 => Core::Proved,
        _ => Core::Model,
    }
}

/// The version of the interface that the linked core has. Its major part has to be that of [`VERSION`].
pub fn version() -> u64 {
    // SAFETY: takes nothing and gives a number.
    unsafe { raw::jallumere_version() }
}

/// A message's fields, for [`write()`]. `views` is the gVec, 4 bytes for each group, and `entries` the entries, 24 bytes
/// each, both little-endian as they stand in a message and without their counts.
#[derive(Clone, Copy, Debug, PartialEq, Eq)]
pub struct Message<'a> {
    pub kind: Kind,
    pub to_group: u64,
    /// Destination replicas, bit by bit.
    pub to_mask: u64,
    pub from_group: u64,
    pub from_replica: u64,
    /// gView; 0 in transactions and ticks.
    pub view: u64,
    /// The kind's numbers in their order; another count than the kind's is malformed.
    pub numbers: &'a [u64],
    pub views: &'a [u8],
    pub entries: &'a [u8],
}

impl Message<'_> {
    /// A message from outside every group, with no numbers, views or entries yet.
    pub fn from_outside(kind: Kind, to_group: u64, to_mask: u64) -> Self {
        Message {
            kind,
            to_group,
            to_mask,
            from_group: OUTSIDE,
            from_replica: OUTSIDE,
            view: 0,
            numbers: &[],
            views: &[],
            entries: &[],
        }
    }
}

/// An entry of the log.
#[derive(Clone, Copy, Debug, PartialEq, Eq, Hash)]
pub struct Entry {
    pub timestamp: u64,
    pub command: u64,
    pub request: u64,
    pub coordinator: u64,
    /// The groups that the transaction touches, bit by bit.
    pub mask: u64,
}

impl Entry {
    /// Its bytes as they stand in a message; none where a number does not fit into its bytes.
    pub fn bytes(&self) -> Option<[u8; ENTRY_LENGTH]> {
        let mut bytes = [0; ENTRY_LENGTH];
        bytes[..8].copy_from_slice(&self.timestamp.to_le_bytes());
        bytes[8..16].copy_from_slice(&self.command.to_le_bytes());
        bytes[16..20].copy_from_slice(&u32::try_from(self.request).ok()?.to_le_bytes());
        bytes[20..22].copy_from_slice(&u16::try_from(self.coordinator).ok()?.to_le_bytes());
        bytes[22..].copy_from_slice(&u16::try_from(self.mask).ok()?.to_le_bytes());
        Some(bytes)
    }
}

/// Writes the fresh state of site `replica` of group `group` over all of `state`, whatever stood there. It is for a site's
/// first start ever: one that has lost its state must not be started afresh, since it would forget what it promised.
pub fn start(sizes: Sizes, group: u64, replica: u64, state: &mut [u8]) -> Result<(), Refusal> {
    // SAFETY: pointer and length are those of one slice, lent for the call alone.
    let answer = unsafe {
        raw::jallumere_start(sizes.sites, sizes.groups, sizes.capacity, group, replica, state.as_mut_ptr(), state.len())
    };
    Answer::from_code(answer).result().map(|_| ())
}

/// One step: takes the message, makes `state` the next state, writes what is to be sent first in `out` and gives its
/// length; [`messages`] cuts it apart. The state is to be on the disk before any of it is sent. After a refusal `state` and `out` are as they came.
pub fn step(sizes: Sizes, state: &mut [u8], message: &[u8], out: &mut [u8]) -> Result<usize, Refusal> {
    // SAFETY: pointers and lengths are those of slices that do not overlap, lent for the call alone.
    let answer = unsafe {
        raw::jallumere_step(
            sizes.sites,
            sizes.groups,
            sizes.capacity,
            state.as_mut_ptr(),
            state.len(),
            message.as_ptr(),
            message.len(),
            out.as_mut_ptr(),
            out.len(),
        )
    };
    Answer::from_code(answer).result()
}

/// Whether these bytes are a good state: false exactly where a step would refuse with [`Refusal::WrongState`].
pub fn is_good(sizes: Sizes, state: &[u8]) -> bool {
    // SAFETY: pointer and length are those of one slice, which is read alone.
    unsafe { raw::jallumere_good(sizes.sites, sizes.groups, sizes.capacity, state.as_ptr(), state.len()) == 0 }
}

/// Puts the early entries of a state into the order of timestamp, coordinator, request, and keeps every one of them; no other
/// byte changes. It is for a state that a core before interface 2.1 has left, once, before the first step. After `Ok` the
/// state is good, and one that was good is as it was, byte for byte. [`Refusal::WrongState`] leaves it as it came: a size or
/// the length is wrong, or the state is not good for another reason than that order.
pub fn order(sizes: Sizes, state: &mut [u8]) -> Result<(), Refusal> {
    // SAFETY: pointer and length are those of one slice, lent for the call alone.
    let answer = unsafe { raw::jallumere_order(sizes.sites, sizes.groups, sizes.capacity, state.as_mut_ptr(), state.len()) };
    Answer::from_code(answer).result().map(|_| ())
}

/// What a field of a state says; none where a size or the state's length is wrong. It looks at those alone: of bytes that
/// are not a good state it gives what stands there.
pub fn field(sizes: Sizes, field: Field, state: &[u8]) -> Option<u64> {
    let Sizes { sites, groups, capacity } = sizes;
    // SAFETY: pointer and length are those of one slice, which is read alone.
    some(unsafe { raw::jallumere_field(sites, groups, capacity, field.number(), state.as_ptr(), state.len()) })
}

/// What the site is doing; none where [`field`] gives none, or of bytes that are no good state.
pub fn status(sizes: Sizes, state: &[u8]) -> Option<Status> {
    field(sizes, Field::Status, state).and_then(Status::from_number)
}

/// The view of a group in the state's gVec, whose leader is the site of that number modulo the sites; none where a size
/// or the state's length is wrong or there is no such group.
pub fn group_view(sizes: Sizes, group: u64, state: &[u8]) -> Option<u64> {
    let Sizes { sites, groups, capacity } = sizes;
    // SAFETY: pointer and length are those of one slice, which is read alone.
    some(unsafe { raw::jallumere_group_view(sites, groups, capacity, group, state.as_ptr(), state.len()) })
}

/// The log's entry at a position from 1 to the log's length; none elsewhere, and where [`field`] gives none.
pub fn entry(sizes: Sizes, position: u64, state: &[u8]) -> Option<Entry> {
    let length = field(sizes, Field::LogLength, state)?;
    let Sizes { sites, groups, capacity } = sizes;
    // SAFETY: pointer and length are those of one slice, which is read alone.
    let said = |field| unsafe { raw::jallumere_entry(sites, groups, capacity, position, field, state.as_ptr(), state.len()) };
    (1..=length).contains(&position).then(|| Entry {
        timestamp: said(1),
        command: said(2),
        request: said(3),
        coordinator: said(4),
        mask: said(5),
    })
}

/// The readers give the greatest number for nothing. No field that they read reaches it in a good state, and an entry is
/// told from none by its position.
fn some(said: u64) -> Option<u64> {
    (said != u64::MAX).then_some(said)
}

/// Whether these bytes are a well-formed message of any kind; [`Refusal::Malformed`] tells where they are wrong first.
pub fn read(sizes: Sizes, message: &[u8]) -> Result<(), Refusal> {
    // SAFETY: pointer and length are those of one slice, which is read alone.
    let answer = unsafe { raw::jallumere_read(sizes.sites, sizes.groups, message.as_ptr(), message.len()) };
    Answer::from_code(answer).result().map(|_| ())
}

/// Writes a message first in `out` and gives its length; the rest of `out` stays. The offset in [`Refusal::Malformed`] is
/// where the first wrong field would stand, or the count of its section where there are too many or too few of them.
pub fn write(sizes: Sizes, message: &Message<'_>, out: &mut [u8]) -> Result<usize, Refusal> {
    // SAFETY: pointers and lengths are those of slices that do not overlap (the three that are read may), lent for the
    // call alone.
    let answer = unsafe {
        raw::jallumere_write(
            sizes.sites,
            sizes.groups,
            message.kind.number(),
            message.to_group,
            message.to_mask,
            message.from_group,
            message.from_replica,
            message.view,
            message.numbers.as_ptr(),
            message.numbers.len(),
            message.views.as_ptr(),
            message.views.len(),
            message.entries.as_ptr(),
            message.entries.len(),
            out.as_mut_ptr(),
            out.len(),
        )
    };
    Answer::from_code(answer).result()
}

/// FNV-1a of 64 bits, run on from `start` over the bytes; [`DIGEST_START`] begins afresh.
pub fn digest(start: u64, bytes: &[u8]) -> u64 {
    // SAFETY: pointer and length are those of one slice, which is read alone.
    unsafe { raw::jallumere_digest(start, bytes.as_ptr(), bytes.len()) }
}

/// The length of the message that `bytes` begins with; none where the kind is none, the bytes end before the message does
/// or a size is wrong. Whether it is well formed is for [`read`] to say.
pub fn message_length(sizes: Sizes, bytes: &[u8]) -> Option<usize> {
    // SAFETY: pointer and length are those of one slice, which is read alone.
    let length = unsafe { raw::jallumere_message_length(sizes.sites, sizes.groups, bytes.as_ptr(), bytes.len()) };
    (length != 0).then_some(length as usize)
}

/// Cuts outgoing bytes into messages. It ends early at bytes that are no whole message, which a step never sends.
pub fn messages(sizes: Sizes, sent: &[u8]) -> impl Iterator<Item = &[u8]> {
    let mut rest = sent;
    std::iter::from_fn(move || {
        let (first, behind) = rest.split_at(message_length(sizes, rest)?);
        rest = behind;
        Some(first)
    })
}
