//! The core through its safe functions.

use jallumere::{
    core, digest, entry, field, group_view, is_good, message_length, messages, order, read, start, status, step, version, write,
    Answer, Core, Entry, Field, Kind, Message, Refusal, Sizes, Status, DIGEST_START, VERSION,
};

const SIZES: Sizes = Sizes { sites: 3, groups: 1, capacity: 16 };

/// Tick 5 to group 0, site 1: the bytes that the rules give.
const TICK: [u8; 32] = [0x17, 0, 2, 0xff, 0xff, 0, 0, 0, 0, 0, 0, 0, 0, 0, 0, 0, 1, 0, 0, 0, 5, 0, 0, 0, 0, 0, 0, 0, 0, 0, 0, 0];

fn fresh(replica: u64) -> Vec<u8> {
    let mut state = vec![0xa5; SIZES.state_length().unwrap()];
    start(SIZES, 0, replica, &mut state).unwrap();
    state
}

fn bytes_of(message: &Message<'_>) -> Vec<u8> {
    let mut out = [0; 128];
    let length = write(SIZES, message, &mut out).unwrap();
    out[..length].to_vec()
}

fn tick(to_mask: u64, time: u64) -> Vec<u8> {
    bytes_of(&Message { numbers: &[time], ..Message::from_outside(Kind::Tick, 0, to_mask) })
}

fn kinds(sent: &[u8]) -> Vec<u8> {
    messages(SIZES, sent).map(|message| message[0]).collect()
}

fn transaction(request: u64, to_mask: u64) -> Vec<u8> {
    transaction_at(30, 0, request, to_mask)
}

fn transaction_at(due: u64, coordinator: u64, request: u64, to_mask: u64) -> Vec<u8> {
    let entry = Entry { timestamp: 0, command: 77, request, coordinator, mask: 1 }.bytes().unwrap();
    bytes_of(&Message { numbers: &[due - 20, 20], entries: &entry, ..Message::from_outside(Kind::Transaction, 0, to_mask) })
}

#[test]
fn lengths_follow_the_formula() {
    assert_eq!(SIZES.state_length(), Some(3_467));
    assert_eq!(Sizes { sites: 7, groups: 8, capacity: 4_096 }.state_length(), Some(2_187_586));
    for wrong in [
        Sizes { sites: 4, ..SIZES },
        Sizes { groups: 0, ..SIZES },
        Sizes { groups: 9, ..SIZES },
        Sizes { capacity: 15, ..SIZES },
        Sizes { capacity: 4_097, ..SIZES },
        Sizes { sites: u64::MAX, groups: u64::MAX, capacity: u64::MAX },
    ] {
        assert_eq!(wrong.state_length(), None, "{wrong:?}");
    }
}

#[test]
fn a_fresh_state_is_good_whatever_stood_there() {
    let state = fresh(1);
    assert!(is_good(SIZES, &state));
    assert_eq!(&state[..3], [0, 1, 1]);
    assert!(state[3..].iter().all(|&byte| byte == 0));
}

#[test]
fn a_wrong_start_leaves_memory_as_it_came() {
    let mut state = vec![0xa5; SIZES.state_length().unwrap()];
    assert_eq!(start(SIZES, 1, 0, &mut state), Err(Refusal::WrongState));
    assert_eq!(start(SIZES, 0, 3, &mut state), Err(Refusal::WrongState));
    assert_eq!(start(SIZES, 0, 0, &mut state[1..]), Err(Refusal::WrongState));
    assert_eq!(start(SIZES, 0, 0, &mut []), Err(Refusal::WrongState));
    assert!(state.iter().all(|&byte| byte == 0xa5));
}

#[test]
fn the_writer_gives_the_bytes_of_the_rules() {
    assert_eq!(tick(2, 5), TICK);
    assert_eq!(read(SIZES, &TICK), Ok(()));
    assert_eq!(read(Sizes { sites: 4, ..SIZES }, &TICK), Err(Refusal::WrongState));
}

fn malformed<T>(offset: usize) -> Result<T, Refusal> {
    Err(Refusal::Malformed { offset })
}

/// A message that is cut is wrong where it ends, one with bytes after its end at the first of them, and any other at its
/// first wrong field.
#[test]
fn the_reader_tells_where_a_message_is_wrong() {
    for length in 0..TICK.len() {
        assert_eq!(read(SIZES, &TICK[..length]), malformed(length));
    }
    assert_eq!(read(SIZES, &[&TICK[..], &[0, 0]].concat()), malformed(32));
    let transaction = transaction(1, 0b111);
    for (place, value, offset) in [(0, 2, 0), (1, 1, 1), (2, 8, 2), (4, 0, 4), (7, 1, 5), (9, 1, 8), (12, 1, 12), (16, 1, 16)] {
        let mut wrong = transaction.clone();
        wrong[place] = value;
        assert_eq!(read(SIZES, &wrong), malformed(offset), "byte {place}");
        wrong[62] = 0; // the mask, behind all others
        assert_eq!(read(SIZES, &wrong), malformed(offset), "byte {place} before another");
    }
    for (place, value, offset) in [(27, 0x80, 28), (36, 2, 36), (47, 1, 40), (56, 0, 56), (62, 2, 62)] {
        let mut wrong = transaction.clone();
        wrong[place] = value;
        assert_eq!(read(SIZES, &wrong), malformed(offset), "byte {place}");
        assert_eq!(read(SIZES, &wrong[..offset]), malformed(offset), "cut before byte {offset}");
    }
}

#[test]
fn a_log_is_wrong_where_it_stops_being_good() {
    let log = |entries: &[Entry]| {
        let bytes: Vec<u8> = entries.iter().flat_map(|entry| entry.bytes().unwrap()).collect();
        let from = Message { from_group: 0, from_replica: 0, ..Message::from_outside(Kind::ReplicaSync, 0, 6) };
        let mut out = [0; 128];
        write(SIZES, &Message { views: &[0; 4], entries: &bytes, ..from }, &mut out)
    };
    let entry = |timestamp, request| Entry { timestamp, command: 77, request, coordinator: 9, mask: 1 };
    assert_eq!(log(&[entry(5, 1), entry(5, 2)]), Ok(76));
    assert_eq!(log(&[entry(5, 2), entry(5, 1)]), malformed(52));
    assert_eq!(log(&[entry(5, 2), Entry { coordinator: 10, ..entry(5, 1) }]), Ok(76));
    assert_eq!(log(&[entry(5, 1), Entry { coordinator: 8, ..entry(5, 2) }]), malformed(52));
    assert_eq!(log(&[entry(5, 1), entry(4, 2)]), malformed(52));
    assert_eq!(log(&[entry(5, 1), entry(6, 1)]), malformed(52));
    assert_eq!(log(&[entry(5, 1), entry(6, 0)]), malformed(68));
    assert_eq!(log(&[entry(5, 1), Entry { mask: 3, ..entry(6, 2) }]), malformed(52));
}

#[test]
fn a_step_tells_where_a_message_is_wrong() {
    let mut state = fresh(1);
    let mut out = [0; 128];
    assert_eq!(step(SIZES, &mut state, &TICK[..31], &mut out), malformed(31));
    for reply in [&[5][..], &[6], &[5; 200]] {
        assert_eq!(step(SIZES, &mut state, reply, &mut out), malformed(0), "{reply:?}");
    }
    assert_eq!(read(SIZES, &[5]), malformed(1));
}

#[test]
fn a_refused_write_leaves_the_buffer() {
    let message = Message { numbers: &[0], ..Message::from_outside(Kind::Tick, 0, 2) };
    let mut out = [0xa5; 40];
    assert_eq!(write(SIZES, &message, &mut out[..31]), Err(Refusal::NoRoom));
    assert_eq!(write(SIZES, &Message { to_mask: 8, ..message }, &mut out), malformed(2));
    assert_eq!(write(SIZES, &Message { from_group: 511, ..message }, &mut out), malformed(3));
    assert_eq!(write(SIZES, &Message { view: 1 << 32, ..message }, &mut out), malformed(8));
    assert_eq!(write(SIZES, &Message { views: &[0; 3], ..message }, &mut out), malformed(12));
    assert_eq!(write(SIZES, &Message { numbers: &[], ..message }, &mut out), malformed(16));
    assert_eq!(write(SIZES, &Message { numbers: &[0, 0], ..message }, &mut out), malformed(16));
    assert_eq!(write(SIZES, &Message { numbers: &[1 << 63], entries: &[0; 23], ..message }, &mut out), malformed(20));
    assert_eq!(write(SIZES, &Message { entries: &[0; 23], ..message }, &mut out), malformed(28));
    assert_eq!(out, [0xa5; 40]);
    assert_eq!(write(SIZES, &message, &mut out), Ok(32));
    assert_eq!(out[32..], [0xa5; 8]);
}

#[test]
fn a_follower_answers_a_tick_with_its_sync_point() {
    let mut state = fresh(1);
    let mut out = [0xa5; 128];
    let sent = step(SIZES, &mut state, &TICK, &mut out).unwrap();
    let cut: Vec<&[u8]> = messages(SIZES, &out[..sent]).collect();
    assert_eq!(cut.len(), 1);
    assert_eq!(cut[0].len(), sent);
    assert_eq!(cut[0][..5], [10, 0, 1, 0, 1]);
    assert_eq!(read(SIZES, cut[0]), Ok(()));
    assert!(out[sent..].iter().all(|&byte| byte == 0xa5));
    assert!(is_good(SIZES, &state));
    assert_eq!(state[16..24], 5u64.to_le_bytes());
}

#[test]
fn a_leader_releases_and_syncs() {
    let mut leader = fresh(0);
    let mut follower = fresh(2);
    let mut out = [0; 512];
    assert_eq!(step(SIZES, &mut leader, &transaction(1, 0b111), &mut out), Ok(0));
    assert_eq!(step(SIZES, &mut leader, &transaction(1, 0b111), &mut out), Err(Refusal::NothingToDo));
    let sent = step(SIZES, &mut leader, &tick(1, 30), &mut out).unwrap();
    let cut: Vec<Vec<u8>> = messages(SIZES, &out[..sent]).map(<[u8]>::to_vec).collect();
    assert_eq!(kinds(&out[..sent]), [5, 4]);
    let reply = step(SIZES, &mut follower, &cut[1], &mut out).unwrap();
    assert_eq!(kinds(&out[..reply]), [6]);
    assert_eq!(field(SIZES, Field::SyncPoint, &follower), Some(1));
}

/// The timestamps that a leader gives to transactions of coordinators 5, 4 and 6, of which the first is logged when the
/// others come, all due at one time.
fn given(due: u64) -> Result<Vec<u64>, Refusal> {
    let mut leader = fresh(0);
    let mut out = [0; 512];
    step(SIZES, &mut leader, &transaction_at(due, 5, 7, 1), &mut out)?;
    step(SIZES, &mut leader, &tick(1, due), &mut out)?;
    for coordinator in [6, 4] {
        step(SIZES, &mut leader, &transaction_at(due, coordinator, 7, 1), &mut out)?;
    }
    step(SIZES, &mut leader, &tick(1, due + 1), &mut out)?;
    let logged = field(SIZES, Field::LogLength, &leader).unwrap();
    Ok((1..=logged).map(|position| entry(SIZES, position, &leader).unwrap().timestamp).collect())
}

#[test]
fn equal_timestamps_are_ordered_by_coordinator() {
    assert_eq!(given(30), Ok(vec![30, 30, 31]));
    assert_eq!(given((1 << 63) - 2), Ok(vec![(1 << 63) - 2, (1 << 63) - 2, (1 << 63) - 1]));
    assert_eq!(given((1 << 63) - 1), Err(Refusal::Full));
}

/// Where early's entries stand in a state of these sizes, behind their count.
const EARLY: usize = 471;

/// A follower with so many early entries, which came with falling coordinators and are all due at one time.
fn with_early(count: u64) -> Vec<u8> {
    let mut state = fresh(1);
    let mut out = [0; 512];
    for coordinator in (1..=count).rev() {
        assert_eq!(step(SIZES, &mut state, &transaction_at(30, coordinator, 7, 2), &mut out), Ok(0));
    }
    state
}

/// The same state as a core before 2.1 would have left it, with early as it came.
fn as_it_came(state: &[u8], count: usize) -> Vec<u8> {
    let mut old = state.to_vec();
    for (place, bytes) in state[EARLY..].chunks(24).take(count).rev().enumerate() {
        old[EARLY + 24 * place..][..24].copy_from_slice(bytes);
    }
    old
}

#[test]
fn early_is_kept_in_order() {
    let state = with_early(16);
    let coordinators: Vec<u8> = state[EARLY..].chunks(24).take(16).map(|entry| entry[20]).collect();
    assert_eq!(coordinators, (1..=16).collect::<Vec<_>>());
    assert!(is_good(SIZES, &state));
}

#[test]
fn an_older_state_is_put_in_order() {
    let mut out = [0xa5; 512];
    for count in [2, 5, 16] {
        let state = with_early(count as u64);
        let mut old = as_it_came(&state, count);
        let before = old.clone();
        assert!(!is_good(SIZES, &old));
        assert_eq!(step(SIZES, &mut old, &TICK, &mut out), Err(Refusal::WrongState));
        assert_eq!(old, before);
        assert_eq!(order(SIZES, &mut old), Ok(()));
        assert_eq!(old, state);
    }
}

#[test]
fn a_good_state_stays_when_it_is_ordered() {
    for count in [0, 1, 16] {
        let state = with_early(count);
        let mut ordered = state.clone();
        assert_eq!(order(SIZES, &mut ordered), Ok(()));
        assert_eq!(ordered, state);
    }
}

#[test]
fn what_is_wrong_otherwise_is_not_ordered() {
    let mut state = as_it_came(&with_early(5), 5);
    let length = state.len();
    let damaged = |place: usize, value: u8| {
        let mut damaged = state.clone();
        damaged[place] = value;
        damaged
    };
    for mut wrong in
        [damaged(3, 1), damaged(EARLY + 16, 0), damaged(EARLY + 22, 2), damaged(EARLY + 44, 5), damaged(length - 1, 1)]
    {
        let before = wrong.clone();
        assert_eq!(order(SIZES, &mut wrong), Err(Refusal::WrongState));
        assert_eq!(wrong, before);
    }
    let before = state.clone();
    assert_eq!(order(SIZES, &mut state[..length - 1]), Err(Refusal::WrongState));
    assert_eq!(order(SIZES, &mut []), Err(Refusal::WrongState));
    for wrong in [Sizes { sites: 4, ..SIZES }, Sizes { groups: 2, ..SIZES }, Sizes { capacity: 17, ..SIZES }] {
        assert_eq!(order(wrong, &mut state), Err(Refusal::WrongState));
    }
    assert_eq!(state, before);
}

#[test]
fn refusals_leave_memory_as_it_came() {
    let mut state = fresh(1);
    let before = state.clone();
    let mut out = [0xa5; 128];
    let change = |view: u64, views: &[u8]| bytes_of(&Message { view, views, ..Message::from_outside(Kind::ChangeView, 0, 7) });
    let from_second = Message { from_group: 0, from_replica: 2, ..Message::from_outside(Kind::SyncStatus, 0, 2) };
    let status = bytes_of(&Message { numbers: &[0], views: &[0; 4], ..from_second });
    let cases: [(&[u8], usize, Refusal); 7] = [
        (&TICK[..31], 128, Refusal::Malformed { offset: 31 }),
        (&[], 128, Refusal::Malformed { offset: 0 }),
        (&tick(1, 5), 128, Refusal::NotAddressedHere),
        (&change(0, &[0; 4]), 128, Refusal::WrongView),
        (&status, 128, Refusal::WrongRole),
        (&TICK, 10, Refusal::NoRoom),
        (&TICK, 0, Refusal::NoRoom),
    ];
    for (message, room, refusal) in cases {
        assert_eq!(step(SIZES, &mut state, message, &mut out[..room]), Err(refusal));
        assert_eq!(state, before);
        assert_eq!(out, [0xa5; 128]);
    }
    let length = state.len();
    assert_eq!(step(SIZES, &mut state[..length - 1], &TICK, &mut out), Err(Refusal::WrongState));
    assert_eq!(step(Sizes { capacity: 17, ..SIZES }, &mut state, &TICK, &mut out), Err(Refusal::WrongState));
    assert_eq!(state, before);
    step(SIZES, &mut state, &tick(2, 9), &mut out).unwrap();
    assert_eq!(step(SIZES, &mut state, &TICK, &mut out), Err(Refusal::NothingToDo));
    step(SIZES, &mut state, &change(1, &[0; 4]), &mut out).unwrap();
    assert_eq!(step(SIZES, &mut state, &tick(2, 10), &mut out), Err(Refusal::WrongStatus));
}

#[test]
fn a_damaged_state_is_not_good() {
    let mut state = fresh(1);
    state[3] = 1;
    let before = state.clone();
    let mut out = [0; 128];
    assert!(!is_good(SIZES, &state));
    assert_eq!(step(SIZES, &mut state, &TICK, &mut out), Err(Refusal::WrongState));
    assert_eq!(state, before);
}

#[test]
fn the_digest_is_fnv_1a() {
    assert_eq!(digest(DIGEST_START, b""), DIGEST_START);
    assert_eq!(digest(DIGEST_START, b"a"), 0xaf63_dc4c_8601_ec8c);
    assert_eq!(digest(DIGEST_START, b"foobar"), 0x8594_4171_f739_67e8);
    assert_eq!(digest(digest(DIGEST_START, b"foo"), b"bar"), 0x8594_4171_f739_67e8);
}

#[test]
fn numbers_have_their_names() {
    let named = |of: fn(u64) -> Option<u64>| (0..=255).filter_map(of).collect::<Vec<_>>();
    assert_eq!(named(|number| Refusal::from_number(number, 7).map(Refusal::number)), (1..=9).collect::<Vec<_>>());
    assert_eq!(named(|number| Kind::from_number(number).map(Kind::number)), [1, 3, 4, 5, 6, 7, 8, 9, 10, 11, 18, 19, 23]);
    assert_eq!(named(|number| Status::from_number(number).map(Status::number)), [1, 2, 3]);
    assert_eq!(named(|number| Field::from_number(number).map(Field::number)), (1..=10).collect::<Vec<_>>());
}

/// `TimestampNote` of a kind with number 3 stands in the header as `JALLUMERE_TIMESTAMP_NOTE = 3`.
fn stands_in_header(prefix: &str, name: String, number: u64) -> bool {
    let mut line = format!("JALLUMERE{prefix}");
    for letter in name.chars() {
        if letter.is_uppercase() {
            line.push('_');
        }
        line.extend(letter.to_uppercase());
    }
    line.push_str(&format!(" = {number}"));
    let header = include_str!("../../../include/jallumere.h");
    header
        .lines()
        .any(|stands| stands.trim().strip_prefix(&line).is_some_and(|rest| !rest.starts_with(|c: char| c.is_ascii_digit())))
}

/// Without the offset that one of them has.
fn name_of(refusal: Refusal) -> String {
    format!("{refusal:?}").split(' ').next().unwrap_or_default().to_string()
}

#[test]
fn names_are_those_of_the_header() {
    for number in 0..=255 {
        let named = [
            Kind::from_number(number).map(|kind| ("", format!("{kind:?}"))),
            Refusal::from_number(number, 0).map(|refusal| ("", name_of(refusal))),
            Status::from_number(number).map(|status| ("_STATUS", format!("{status:?}"))),
            Field::from_number(number).map(|field| ("_FIELD", format!("{field:?}"))),
        ];
        for (prefix, name) in named.into_iter().flatten() {
            assert!(stands_in_header(prefix, name.clone(), number), "{prefix} {name} {number}");
        }
    }
    assert!(!stands_in_header("", "Tick".into(), 2));
    let version: Vec<u64> = env!("CARGO_PKG_VERSION").split('.').map(|part| part.parse().unwrap()).collect();
    assert_eq!(version[0] * 10_000 + version[1] * 100 + version[2], VERSION);
    assert!(include_str!("../../../include/jallumere.h").contains(&format!("#define JALLUMERE_VERSION {VERSION}\n")));
}

#[test]
fn an_answer_is_a_number_and_a_length_or_an_offset() {
    let answer = Answer::from_code(36 * 256);
    assert_eq!((answer.number(), answer.length(), answer.result()), (0, 36, Ok(36)));
    let answer = Answer::from_code(2 + 36 * 256);
    assert_eq!((answer.number(), answer.length(), answer.result()), (2, 0, malformed(36)));
    assert_eq!(Refusal::Malformed { offset: 36 }.to_string(), "malformed message, wrong at byte 36");
    assert_eq!(Answer::from_code(8).result(), Err(Refusal::Full));
    assert_eq!(Answer::from_code(0).result(), Ok(0));
}

#[test]
fn bytes_are_cut_into_messages() {
    let two = [&TICK[..], &transaction(1, 1)].concat();
    assert_eq!(message_length(SIZES, &two), Some(32));
    assert_eq!(message_length(SIZES, &two[32..]), Some(64));
    assert_eq!(kinds(&two), [23, 1]);
    assert_eq!(kinds(&two[..95]), [23]);
    for none in [&TICK[..31], &[], &[0xff; 40], &[2; 40]] {
        assert_eq!(message_length(SIZES, none), None, "{none:?}");
    }
    assert_eq!(message_length(Sizes { sites: 4, ..SIZES }, &TICK), None);
    assert_eq!(message_length(Sizes { groups: 9, ..SIZES }, &TICK), None);
}

#[test]
fn fields_say_what_steps_did() {
    let mut leader = fresh(0);
    let mut out = [0; 512];
    step(SIZES, &mut leader, &transaction(4, 0b111), &mut out).unwrap();
    assert_eq!(entry(SIZES, 1, &leader), None);
    step(SIZES, &mut leader, &tick(1, 31), &mut out).unwrap();
    let said = |state: &[u8]| {
        (1..=10).map(|number| field(SIZES, Field::from_number(number).unwrap(), state).unwrap()).collect::<Vec<_>>()
    };
    assert_eq!(said(&leader), [0, 0, 1, 0, 0, 31, 1, 0, 1, 0]);
    assert_eq!(entry(SIZES, 1, &leader), Some(Entry { timestamp: 30, command: 77, request: 4, coordinator: 0, mask: 1 }));
    assert_eq!((entry(SIZES, 0, &leader), entry(SIZES, 2, &leader), entry(SIZES, u64::MAX, &leader)), (None, None, None));

    let change = Message { view: 7, views: &5u32.to_le_bytes(), ..Message::from_outside(Kind::ChangeView, 0, 7) };
    step(SIZES, &mut leader, &bytes_of(&change), &mut out).unwrap();
    assert_eq!(said(&leader), [0, 0, 2, 7, 0, 31, 1, 0, 1, 2]);
    assert_eq!(status(SIZES, &leader), Some(Status::ViewChange));
    assert_eq!((group_view(SIZES, 0, &leader), group_view(SIZES, 1, &leader)), (Some(5), None));
}

#[test]
fn an_entry_has_its_bytes() {
    let entry = Entry { timestamp: 1, command: u64::MAX, request: 0x0403_0201, coordinator: 0x0605, mask: 0x80 };
    let bytes = entry.bytes().unwrap();
    assert_eq!(bytes[..8], [1, 0, 0, 0, 0, 0, 0, 0]);
    assert_eq!(bytes[8..], [255, 255, 255, 255, 255, 255, 255, 255, 1, 2, 3, 4, 5, 6, 0x80, 0]);
    assert_eq!(Entry { request: 1 << 32, ..entry }.bytes(), None);
    assert_eq!(Entry { coordinator: 1 << 16, ..entry }.bytes(), None);
    assert_eq!(Entry { mask: 1 << 16, ..entry }.bytes(), None);
}

#[test]
fn fields_of_wrong_sizes_say_nothing() {
    let state = fresh(2);
    assert_eq!(status(SIZES, &state), Some(Status::Normal));
    for (sizes, bytes) in
        [(SIZES, &state[1..]), (SIZES, &[]), (Sizes { capacity: 17, ..SIZES }, &state[..]), (Sizes { sites: 4, ..SIZES }, &state)]
    {
        assert_eq!(field(sizes, Field::Replica, bytes), None);
        assert_eq!(status(sizes, bytes), None);
        assert_eq!(group_view(sizes, 0, bytes), None);
        assert_eq!(entry(sizes, 1, bytes), None);
    }
}

#[test]
fn a_buffer_of_this_room_is_never_too_short() {
    let mut leader = fresh(0);
    let mut out = vec![0; SIZES.room()];
    for request in 1..=16 {
        assert_eq!(step(SIZES, &mut leader, &transaction(request, 1), &mut out), Ok(0));
    }
    assert_eq!(step(SIZES, &mut leader, &transaction(17, 1), &mut out), Err(Refusal::Full));
    let before = leader.clone();
    assert_eq!(step(SIZES, &mut leader, &tick(1, 30), &mut out[1..]), Err(Refusal::NoRoom));
    assert_eq!(leader, before);
    assert_eq!(step(SIZES, &mut leader, &tick(1, 30), &mut out), Ok(SIZES.room()));
}

/// Which core is linked is for the build to choose, by JALLUMERE_CORE; of an archive or object that it names nothing is known.
#[test]
fn the_core_says_what_it_is() {
    assert_eq!(version() / 10_000, VERSION / 10_000);
    match option_env!("JALLUMERE_CORE").unwrap_or("") {
        "" => assert_eq!(core(), Core::Proved),
        "model" => assert_eq!(core(), Core::Model),
        _ => {}
    }
}
