//! Names for the numbers of the rules.

use std::fmt;

/// An enum whose cases are numbers of the rules, and the way there and back.
macro_rules! numbered {
    ($(#[$about:meta])* $name:ident { $($(#[$meaning:meta])* $case:ident = $number:literal,)* }) => {
        $(#[$about])*
        #[derive(Clone, Copy, Debug, PartialEq, Eq, PartialOrd, Ord, Hash)]
        #[repr(u8)]
        pub enum $name {
            $($(#[$meaning])* $case = $number,)*
        }

        impl $name {
            /// The case with this number, if the rules have one.
            pub fn from_number(number: u64) -> Option<$name> {
                match number {
                    $($number => Some($name::$case),)*
                    _ => None,
                }
            }

            /// Its number in the rules.
            pub fn number(self) -> u64 {
                self as u64
            }
        }
    };
}

numbered! {
    /// The kinds of messages: a message's first byte. Hosts make [`Kind::Transaction`], [`Kind::ChangeView`] and
    /// [`Kind::Tick`]; the others are made by steps and carried.
    Kind {
        /// 1, from a coordinator: send time, bound; one entry with timestamp 0.
        Transaction = 1,
        /// 3, from leader to leader of another group: one entry.
        TimestampNote = 3,
        /// 4, from the leader to its followers: its log.
        ReplicaSync = 4,
        /// 5, to a coordinator: placed, position, digest; one entry.
        FastReply = 5,
        /// 6, to a coordinator: position; one entry.
        SlowReply = 6,
        /// 7, from the view manager: no numbers, no entries.
        ChangeView = 7,
        /// 8, to the leader of the new view: last normal gView, sync point; the log.
        Vote = 8,
        /// 9, from the leader to its followers: the log that the view starts with.
        StartView = 9,
        /// 10, from a follower to its leader: sync point.
        SyncStatus = 10,
        /// 11, from the leader to a follower: commit point.
        Commit = 11,
        /// 18, from leader to leader of another group: boundary, the timestamp from which on it asks.
        VerifyRequest = 18,
        /// 19, the answer to a verify request: entries.
        VerifyReply = 19,
        /// 23, from the site's own host: time.
        Tick = 23,
    }
}

/// Why a call was refused. The lowest number that applies is given, and after a refusal all memory is as it came.
#[derive(Clone, Copy, Debug, PartialEq, Eq, PartialOrd, Ord, Hash)]
pub enum Refusal {
    /// 1: a size, an own number or the state's length is wrong, or the state is not good.
    WrongState,
    /// 2: the message is malformed, or it is a reply to a coordinator.
    Malformed {
        /// Where the first wrong field begins, in bytes from the message's beginning: in one that is cut its length, in
        /// one with bytes after its end the first of them; 0 for a reply that was given to a step.
        offset: usize,
    },
    /// 3: the message is not addressed to this site.
    NotAddressedHere,
    /// 4: the message is of a wrong view.
    WrongView,
    /// 5: this site is in a status that does not take the message.
    WrongStatus,
    /// 6: this site or the sender has a wrong role.
    WrongRole,
    /// 7: there is nothing to do now.
    NothingToDo,
    /// 8: a table or the log would pass the capacity, or a leader's timestamp 2^63 − 1.
    Full,
    /// 9: the outgoing buffer is too short.
    NoRoom,
}

impl Refusal {
    /// The refusal with this number, if the rules have one; one for a malformed message has this offset.
    pub fn from_number(number: u64, offset: usize) -> Option<Refusal> {
        Some(match number {
            1 => Refusal::WrongState,
            2 => Refusal::Malformed { offset },
            3 => Refusal::NotAddressedHere,
            4 => Refusal::WrongView,
            5 => Refusal::WrongStatus,
            6 => Refusal::WrongRole,
            7 => Refusal::NothingToDo,
            8 => Refusal::Full,
            9 => Refusal::NoRoom,
            _ => return None,
        })
    }

    /// Its number in the rules.
    pub fn number(self) -> u64 {
        match self {
            Refusal::WrongState => 1,
            Refusal::Malformed { .. } => 2,
            Refusal::NotAddressedHere => 3,
            Refusal::WrongView => 4,
            Refusal::WrongStatus => 5,
            Refusal::WrongRole => 6,
            Refusal::NothingToDo => 7,
            Refusal::Full => 8,
            Refusal::NoRoom => 9,
        }
    }
}

impl fmt::Display for Refusal {
    fn fmt(&self, to: &mut fmt::Formatter<'_>) -> fmt::Result {
        to.write_str(match self {
            Refusal::WrongState => "wrong size, number or state",
            Refusal::Malformed { offset } => return write!(to, "malformed message, wrong at byte {offset}"),
            Refusal::NotAddressedHere => "not addressed here",
            Refusal::WrongView => "wrong view",
            Refusal::WrongStatus => "wrong status",
            Refusal::WrongRole => "wrong role",
            Refusal::NothingToDo => "nothing to do now",
            Refusal::Full => "a table or log would pass its capacity, or a timestamp the greatest",
            Refusal::NoRoom => "outgoing buffer too short",
        })
    }
}

impl std::error::Error for Refusal {}

numbered! {
    /// What a site is doing.
    Status {
        /// 1: taking transactions and ticks.
        Normal = 1,
        /// 2: in a new view that has not started.
        ViewChange = 2,
        /// 3: a leader that waits for the other groups' verify replies.
        CrossShard = 3,
    }
}

numbered! {
    /// A field of a state, for [`crate::field`].
    Field {
        /// 1: the own group.
        Group = 1,
        /// 2: the own replica.
        Replica = 2,
        /// 3: the status, by the numbers of [`Status`].
        Status = 3,
        /// 4: gView.
        View = 4,
        /// 5: the last gView in which the status was normal.
        LastNormalView = 5,
        /// 6: the time of the last tick taken.
        Clock = 6,
        /// 7: up to here the log is the leader's.
        SyncPoint = 7,
        /// 8: up to here the log is committed.
        CommitPoint = 8,
        /// 9: entries in the log.
        LogLength = 9,
        /// 10: the replica that leads the own group.
        Leader = 10,
    }
}

/// What the C functions `jallumere_step`, `jallumere_read` and `jallumere_write` give: a refusal's number, 0 for done,
/// + 256 * what goes with it: a length beside 0, the offset of the first wrong field beside 2.
#[derive(Clone, Copy, Debug, PartialEq, Eq, Hash)]
pub struct Answer(u64);

impl Answer {
    pub fn from_code(code: u64) -> Answer {
        Answer(code)
    }

    /// 0 for done, else the refusal's number.
    pub fn number(self) -> u64 {
        self.0 % 256
    }

    /// The bytes that were written; 0 after a refusal.
    pub fn length(self) -> u64 {
        if self.number() == 0 {
            self.0 / 256
        } else {
            0
        }
    }

    /// The length, or the refusal. A number that the rules do not have is no answer of a core.
    pub fn result(self) -> Result<usize, Refusal> {
        match (self.number(), Refusal::from_number(self.number(), (self.0 / 256) as usize)) {
            (_, Some(refusal)) => Err(refusal),
            (0, None) => Ok(self.length() as usize),
            _ => panic!("the core answered {}, which its rules do not have", self.0),
        }
    }
}

/// Which core is linked.
#[derive(Clone, Copy, Debug, PartialEq, Eq, Hash)]
pub enum Core {
    /// The core that is proved.
    Proved,
    /// The C model, which is written to compare with and not proved.
    Model,
}
