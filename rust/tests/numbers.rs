//! The numbers of the crate: the layout of a board, the constants, the states, the refusals and their words, and which field is
//! lent where. The layout is that of layout.txt, which the header for C is held against too.
use bittmelon::{
    figures, Board, Phase, Refusal, Reply, MAX_ENTRIES, MAX_LIST_BYTES, MAX_PLAN_BYTES, MAX_PROCESSORS, MAX_RESOURCES,
    MAX_SCRATCH_BYTES, MAX_TICK,
};

/// A plan all of whose entries write resource 0 for at most 9 ticks.
fn plan(processors: u8, resources: u8, entries: u8) -> Vec<u8> {
    let entry = [1, 1, 0, 0, 0, 0, 0, 0, 0, 9, 0];
    [vec![processors, resources, entries], entry.repeat(entries as usize)].concat()
}

/// Plan F of the specification.
fn plan_f() -> Vec<u8> {
    let entries = [(1, 4, 30), (1, 6, 20), (1, 1, 40), (0, 3, 10), (0, 4, 5)];
    let bytes = entries.map(|(kind, set, length)| [kind, set, 0, 0, 0, 0, 0, 0, 0, length, 0]);
    [vec![4, 3, 5], bytes.concat()].concat()
}

/// The board of plan F with a holder, two that wait and one that is entitled. Processor 3 has entry 4, which a plan of as many
/// entries as processors would not have.
fn board_f() -> Board {
    let mut board = Board::new(&plan_f()).unwrap();
    for (processor, entry) in [(0, 0), (1, 1), (2, 2), (3, 4)] {
        board.issue(processor, entry, processor as u64).unwrap();
    }
    board
}

#[test]
fn a_board_has_the_fields_of_the_layout() {
    const SIZE: usize = core::mem::size_of::<Board>();
    let mut bytes = [0; SIZE];
    let mut seed: u32 = 1;
    for byte in &mut bytes {
        seed = seed.wrapping_mul(1_664_525).wrapping_add(1_013_904_223);
        *byte = (seed >> 24) as u8;
    }
    let mut due = Vec::new();
    let mut end = 0;
    for line in include_str!("layout.txt").lines().filter(|line| !line.starts_with('#')) {
        let words: Vec<&str> = line.split(' ').collect();
        let [offset, size, count] = [1, 2, 3].map(|i| words[i].parse::<usize>().unwrap());
        let number = |i: usize| (0..size).rev().fold(0, |sum, at| sum << 8 | bytes[offset + i * size + at] as u64);
        let numbers: Vec<u64> = (0..count).map(number).collect();
        due.push(if count == 1 { format!("{}: {}", words[0], numbers[0]) } else { format!("{}: {numbers:?}", words[0]) });
        end = offset + size * count;
    }
    assert_eq!((due.len(), end), (13, SIZE));
    // SAFETY: a board is numbers alone, and any bytes are numbers.
    let board: Board = unsafe { core::mem::transmute(bytes) };
    assert_eq!(format!("{board:?}"), format!("Board {{ {} }}", due.join(", ")));
}

#[test]
fn the_fields_have_what_the_plan_has() {
    let text = format!("{:?}", board_f());
    for field in [
        "last: 3, writes: 7, phases: [6, 8, 1], processors: 4, entries: 5,",
        "entry: [0, 1, 2, 4, ",
        "since: [0, 1, 2, 3, ",
        "lengths: [30, 20, 40, 10, 5, ",
        "names: [4, 6, 1, 3, 4, ",
    ] {
        assert!(text.contains(field), "{field} in {text}");
    }
}

#[test]
fn the_counts_are_the_largest() {
    for count in 0..=u8::MAX {
        let due = |most: usize, refusal| if (1..=most).contains(&(count as usize)) { Ok(()) } else { Err(refusal) };
        let made = |bytes: Vec<u8>| figures(&bytes).map(|_| ());
        assert_eq!(made(plan(count, 1, 1)), due(MAX_PROCESSORS, Refusal::Processors), "{count} processors");
        assert_eq!(made(plan(1, count, 1)), due(MAX_RESOURCES, Refusal::Resources), "{count} resources");
        assert_eq!(made(plan(1, 1, count)), due(MAX_ENTRIES, Refusal::Entries), "{count} entries");
    }
}

#[test]
fn the_rooms_and_the_largest_tick_are_the_archives() {
    let bytes = plan(32, 64, 64);
    let (mut board, taken) = Board::read(&bytes).unwrap();
    assert_eq!((bytes.len(), taken), (MAX_PLAN_BYTES, MAX_PLAN_BYTES));
    let mut buffer = [0; 1024];
    for size in 0..buffer.len() {
        let reach = board.reach(31, &mut buffer[..size]).map(|_| ());
        assert_eq!(reach, if size < MAX_SCRATCH_BYTES { Err(Refusal::Room) } else { Ok(()) }, "a scratch of {size}");
        let list = board.list(&mut buffer[..size]);
        assert_eq!(list, if size < MAX_LIST_BYTES { Err(Refusal::Room) } else { Ok(MAX_LIST_BYTES) }, "a list of {size}");
    }
    assert_eq!(board.issue(0, 0, MAX_TICK + 1), Err(Refusal::Tick));
    assert!(board.issue(0, 0, MAX_TICK).is_ok());
    assert_eq!(MAX_TICK, 1_099_511_627_775);
}

#[test]
#[allow(deprecated)]
fn the_former_names_have_the_same_values() {
    use bittmelon::{LAST_TICK, LIST_ROOM, PLAN_ROOM, SCRATCH_ROOM};
    assert_eq!((PLAN_ROOM, SCRATCH_ROOM), (MAX_PLAN_BYTES, MAX_SCRATCH_BYTES));
    assert_eq!((LIST_ROOM, LAST_TICK), (MAX_LIST_BYTES, MAX_TICK));
}

#[test]
fn a_state_has_its_number_in_a_list() {
    let mut board = board_f();
    let phases = [Phase::Holding, Phase::Waiting, Phase::Waiting, Phase::Entitled];
    let mut buffer = [0; MAX_LIST_BYTES];
    board.list(&mut buffer).unwrap();
    for processor in 0..4 {
        let phase = board.state(processor as u8).unwrap();
        assert_eq!((phase, phase as u8), (phases[processor], buffer[1 + 8 * processor]));
    }
    board.withdraw(1, 4).unwrap();
    board.list(&mut buffer).unwrap();
    assert_eq!((board.state(1), Phase::Idle as u8), (Ok(Phase::Idle), buffer[9]));
    assert_eq!([Phase::Idle, Phase::Waiting, Phase::Entitled, Phase::Holding].map(|phase| phase as u8), [0, 1, 2, 3]);
}

#[test]
fn a_list_has_every_processor() {
    let mut buffer = [170; MAX_LIST_BYTES];
    assert_eq!(board_f().list(&mut buffer), Ok(33));
    let due =
        [[3, 0, 0, 0, 0, 0, 0, 0], [1, 1, 2, 0, 0, 0, 0b0001, 0], [1, 2, 1, 0, 0, 0, 0b0010, 0], [2, 4, 0, 0, 0, 0, 0b0001, 0]];
    assert_eq!(buffer[..33], [vec![4], due.concat()].concat());
}

#[test]
fn reaches_of_plan_f() {
    let board = board_f();
    let reaches = [0, 1, 2, 3].map(|p| board.reach(p, &mut [0; MAX_SCRATCH_BYTES]).unwrap());
    assert_eq!(reaches, [0, 0b0001, 0b0011, 0b0001]);
}

#[test]
fn an_entry_above_the_count_of_processors() {
    let mut board = board_f();
    assert_eq!(board.withdraw(3, 4), Ok(Reply { granted: 0, entitled: 0, late: false }));
    assert_eq!(board.withdraw(3, 4), Err(Refusal::Idle));
    let mut board = Board::new(&plan_f()).unwrap();
    assert_eq!(board.issue(0, 4, 0), Ok(Reply { granted: 1, entitled: 0, late: false }));
    assert_eq!(board.handover(0, 4, 6), Ok(Reply { granted: 1, entitled: 0, late: true }));
    assert_eq!(board.complete(0, 12), Ok(Reply { granted: 0, entitled: 0, late: true }));
}

#[test]
fn grants_of_all_processors() {
    for processor in 0..32 {
        let mut board = Board::new(&plan(32, 64, 64)).unwrap();
        let reply = board.issue(processor, 63, 5).unwrap();
        assert_eq!(reply.granted, 1 << processor);
        for other in 0..=u8::MAX {
            assert_eq!(reply.grants(other), other == processor, "{other} where {processor} is granted");
        }
    }
    let all = Reply { granted: u32::MAX, entitled: 0, late: false };
    assert_eq!((0..=u8::MAX).filter(|processor| all.grants(*processor)).count(), 32);
}

/// The table of the specification's section 8.
const REFUSALS: [(Refusal, u32, &str); 18] = [
    (Refusal::Short, 1, "short"),
    (Refusal::Tail, 2, "tail"),
    (Refusal::Processors, 3, "processors"),
    (Refusal::Resources, 4, "resources"),
    (Refusal::Entries, 5, "entries"),
    (Refusal::Kind, 6, "kind"),
    (Refusal::Set, 7, "set"),
    (Refusal::Length, 8, "length"),
    (Refusal::Verb, 9, "verb"),
    (Refusal::Tick, 10, "tick"),
    (Refusal::Processor, 11, "processor"),
    (Refusal::Entry, 12, "entry"),
    (Refusal::Busy, 13, "busy"),
    (Refusal::Idle, 14, "idle"),
    (Refusal::Unheld, 15, "unheld"),
    (Refusal::Room, 16, "room"),
    (Refusal::Held, 17, "held"),
    (Refusal::Register, 18, "register"),
];

#[test]
fn refusals_have_the_numbers_and_words_of_the_table() {
    for (refusal, number, word) in REFUSALS {
        assert_eq!((refusal.number(), refusal.word()), (number, word));
        assert_eq!(Refusal::from_number(number), Some(refusal));
        assert_eq!(refusal.to_string(), format!("refused {number}: {word}"));
    }
}
