//! The calls of plan F from the stored log, and every refusal that a plan, a call or a query can return.
use bittmelon::{
    figures, Board, Figures, Phase, Refusal, Reply, Shared, MAX_LIST_BYTES, MAX_PLAN_BYTES, MAX_SCRATCH_BYTES, MAX_TICK,
};

const WRITES: bool = true;
const READS: bool = false;

fn entry(writes: bool, names: u64, length: u16) -> Vec<u8> {
    [&[writes as u8][..], &names.to_le_bytes(), &length.to_le_bytes()].concat()
}

fn plan(processors: u8, resources: u8, entries: &[Vec<u8>]) -> Vec<u8> {
    [vec![processors, resources, entries.len() as u8], entries.concat()].concat()
}

fn plan_f() -> Vec<u8> {
    let entries = [
        entry(WRITES, 0b100, 30),
        entry(WRITES, 0b110, 20),
        entry(WRITES, 0b001, 40),
        entry(READS, 0b011, 10),
        entry(READS, 0b100, 5),
    ];
    plan(4, 3, &entries)
}

fn reply(granted: u32, entitled: u32, late: bool) -> Result<Reply, Refusal> {
    Ok(Reply { granted, entitled, late })
}

#[test]
fn plan_f_is_answered_as_the_specification_has_it() {
    let mut board = Board::new(&plan_f()).unwrap();
    assert_eq!(board.issue(0, 0, 0), reply(0b0001, 0, false));
    assert_eq!(board.issue(1, 1, 1), reply(0, 0, false));
    assert_eq!(board.issue(2, 2, 2), reply(0, 0, false));
    assert_eq!(board.issue(3, 3, 3), reply(0b1000, 0, false));
    assert_eq!(board.complete(3, 13), reply(0, 0, false));
    assert_eq!(board.issue(3, 4, 14), reply(0, 0b1000, false));
    assert_eq!(board.complete(0, 30), reply(0b1000, 0b0010, false));
    assert_eq!(board.issue(0, 3, 31), reply(0, 0, false));
    assert_eq!(board.complete(3, 35), reply(0b0010, 0b0001, false));
    assert_eq!(board.complete(1, 56), reply(0b0001, 0b0100, true));
    assert_eq!(board.complete(0, 50), Err(Refusal::Tick));
    assert_eq!(board.complete(0, 66), reply(0b0100, 0, false));
}

#[test]
fn queries_of_plan_f() {
    let mut board = Board::new(&plan_f()).unwrap();
    for (processor, entry) in [(0, 0), (1, 1), (2, 2), (3, 4)] {
        board.issue(processor, entry, processor as u64).unwrap();
    }
    let phases = [0, 1, 2, 3].map(|p| board.state(p).unwrap());
    assert_eq!(phases, [Phase::Holding, Phase::Waiting, Phase::Waiting, Phase::Entitled]);
    assert_eq!([0, 1, 2, 3].map(|p| board.waits(p).unwrap()), [0, 0b0001, 0b0010, 0b0001]);
    assert_eq!(board.reach(2, &mut [0; MAX_SCRATCH_BYTES]), Ok(0b0011));
    let mut buffer = [170; MAX_LIST_BYTES];
    assert_eq!(board.list(&mut buffer), Ok(33));
    assert_eq!(buffer[..17], [4, 3, 0, 0, 0, 0, 0, 0, 0, 1, 1, 2, 0, 0, 0, 1, 0]);
    assert_eq!(buffer[33..], [170; MAX_LIST_BYTES - 33]);
    assert_eq!(board.shared(1, 2), Ok(Some(Shared { lowest: 0, count: 2 })));
    assert_eq!(board.shared(3, 4), Ok(None));
    assert_eq!(figures(&plan_f()), Ok(Figures { read: 50, write: 150 }));
}

/// Checks that the call is refused and that the board stays as it was.
fn refuses<T: core::fmt::Debug + PartialEq>(
    board: &mut Board,
    refusal: Refusal,
    call: impl Fn(&mut Board) -> Result<T, Refusal>,
) {
    let before = board.clone();
    assert_eq!(call(board), Err(refusal));
    assert_eq!(*board, before);
}

#[test]
fn every_refusal_of_a_call_changes_nothing() {
    let board = &mut Board::new(&plan_f()).unwrap();
    board.issue(0, 0, 7).unwrap();
    board.issue(1, 1, 7).unwrap();
    for tick in [6, MAX_TICK + 1, u64::MAX] {
        refuses(board, Refusal::Tick, |b| b.issue(2, 0, tick));
        refuses(board, Refusal::Tick, |b| b.complete(0, tick));
        refuses(board, Refusal::Tick, |b| b.withdraw(1, tick));
        refuses(board, Refusal::Tick, |b| b.handover(0, 0, tick));
    }
    for processor in [4, 32, 255] {
        refuses(board, Refusal::Processor, |b| b.issue(processor, 0, 7));
        refuses(board, Refusal::Processor, |b| b.complete(processor, 7));
        refuses(board, Refusal::Processor, |b| b.withdraw(processor, 7));
        refuses(board, Refusal::Processor, |b| b.handover(processor, 0, 7));
        refuses(board, Refusal::Processor, |b| b.state(processor));
        refuses(board, Refusal::Processor, |b| b.waits(processor));
        refuses(board, Refusal::Processor, |b| b.reach(processor, &mut []));
    }
    for entry in [5, 64, 255] {
        refuses(board, Refusal::Entry, |b| b.issue(2, entry, 7));
        refuses(board, Refusal::Entry, |b| b.handover(0, entry, 7));
        refuses(board, Refusal::Entry, |b| b.shared(0, entry));
        refuses(board, Refusal::Entry, |b| b.shared(entry, 0));
    }
    refuses(board, Refusal::Busy, |b| b.issue(0, 0, 7));
    refuses(board, Refusal::Idle, |b| b.complete(2, 7));
    refuses(board, Refusal::Idle, |b| b.withdraw(2, 7));
    refuses(board, Refusal::Idle, |b| b.handover(2, 0, 7));
    refuses(board, Refusal::Unheld, |b| b.complete(1, 7));
    refuses(board, Refusal::Unheld, |b| b.handover(1, 0, 7));
    refuses(board, Refusal::Held, |b| b.withdraw(0, 7));
    refuses(board, Refusal::Room, |b| b.reach(0, &mut [0; 31]));
    refuses(board, Refusal::Room, |b| b.list(&mut [0; 32]));
    refuses(board, Refusal::Room, |b| b.list(&mut []));
}

#[test]
fn every_refusal_of_a_plan() {
    let one = |writes, names, length| plan(1, 1, &[entry(writes, names, length)]);
    let mut kind = one(READS, 1, 1);
    kind[3] = 2;
    let cases = [
        (vec![], Refusal::Short),
        (plan_f()[..57].to_vec(), Refusal::Short),
        (plan(0, 1, &[]), Refusal::Processors),
        (plan(33, 1, &[]), Refusal::Processors),
        (plan(1, 0, &[]), Refusal::Resources),
        (plan(1, 65, &[]), Refusal::Resources),
        (plan(1, 1, &[]), Refusal::Entries),
        (plan(1, 1, &vec![entry(READS, 1, 1); 65]), Refusal::Entries),
        (kind, Refusal::Kind),
        (one(WRITES, 0, 1), Refusal::Set),
        (one(WRITES, 2, 1), Refusal::Set),
        (one(WRITES, 1, 0), Refusal::Length),
    ];
    for (bytes, refusal) in cases {
        assert_eq!(Board::new(&bytes), Err(refusal));
        assert_eq!(figures(&bytes), Err(refusal));
    }
}

#[test]
fn the_largest_plan() {
    let bytes = plan(32, 64, &vec![entry(WRITES, u64::MAX, u16::MAX); 64]);
    assert_eq!(bytes.len(), MAX_PLAN_BYTES);
    let (mut board, taken) = Board::read(&[&bytes[..], &[9; 20]].concat()).unwrap();
    assert_eq!(taken, MAX_PLAN_BYTES);
    for processor in 0..32 {
        board.issue(processor, 2 * processor, MAX_TICK).unwrap();
    }
    assert_eq!(board.reach(31, &mut [0; MAX_SCRATCH_BYTES]), Ok(u32::MAX >> 1));
    assert_eq!(board.reach(31, &mut [0; MAX_SCRATCH_BYTES - 1]), Err(Refusal::Room));
    assert_eq!(board.list(&mut [0; MAX_LIST_BYTES]), Ok(MAX_LIST_BYTES));
    assert_eq!(board.shared(0, 63), Ok(Some(Shared { lowest: 0, count: 64 })));
    assert_eq!(figures(&bytes), Ok(Figures { read: 65_535, write: 31 * 65_535 }));
}

#[test]
fn numbers_and_words_of_refusals() {
    for number in 1..=18 {
        assert_eq!(Refusal::from_number(number).unwrap().number(), number);
    }
    assert_eq!((Refusal::from_number(0), Refusal::from_number(19)), (None, None));
    assert_eq!(Refusal::Room.to_string(), "refused 16: room");
    let error: &dyn core::error::Error = &Refusal::Held;
    assert_eq!(error.to_string(), "refused 17: held");
}

#[test]
fn versions_agree() {
    let numbers: Vec<u32> = bittmelon::VERSION.split('.').map(|part| part.parse().unwrap()).collect();
    assert_eq!(bittmelon::version(), 10_000 * numbers[0] + 100 * numbers[1] + numbers[2]);
}
