#!/usr/bin/env python3
"""Write the stored logs: make_logs.py DIR. With --largest, write the log of 65,535 calls to standard output instead;
with --largest CALLS, one like it of so many calls."""
import pathlib
import random
import sys

ISSUE, COMPLETE, WITHDRAW, HANDOVER = 0, 1, 2, 3
LAST = 2**40 - 1


def entry(kind, names, length):
    return bytes([kind]) + sum(1 << r for r in names).to_bytes(8, "little") + length.to_bytes(2, "little")


def read(names, length):
    return entry(0, names, length)


def write(names, length):
    return entry(1, names, length)


def plan(processors, resources, entries):
    return bytes([processors, resources, len(entries)]) + b"".join(entries)


def issue(processor, number, tick):
    return bytes([ISSUE, processor, number]) + tick.to_bytes(5, "little")


def complete(processor, tick):
    return bytes([COMPLETE, processor, 0]) + tick.to_bytes(5, "little")


def withdraw(processor, tick):
    return bytes([WITHDRAW, processor, 0]) + tick.to_bytes(5, "little")


def handover(processor, number, tick):
    return bytes([HANDOVER, processor, number]) + tick.to_bytes(5, "little")


def log(plan_bytes, calls, count=None):
    return plan_bytes + (len(calls) if count is None else count).to_bytes(2, "little") + b"".join(calls)


F = plan(4, 3, [write([2], 30), write([1, 2], 20), write([0], 40), read([0, 1], 10), read([2], 5)])
F_CALLS = [
    issue(0, 0, 0), issue(1, 1, 1), issue(2, 2, 2), issue(3, 3, 3), complete(3, 13), issue(3, 4, 14),
    complete(0, 30), issue(0, 3, 31), complete(3, 35), complete(1, 56), complete(0, 50), complete(0, 66),
]
ONE = plan(1, 1, [write([0], 7), read([0], 3)])
PAIR = plan(2, 2, [write([0], 20), read([0], 5), write([1], 9)])


def refusals():
    """Every refusal number that a listing shows, and every order of refusals."""
    yield "empty", b""
    yield "refused_01_no_count", F
    yield "refused_01_half_count", F + b"\1"
    yield "refused_01_call", log(F, F_CALLS[:3], 4)
    yield "refused_02_tail", log(F, F_CALLS[:3]) + b"\0"
    yield "refused_02_no_calls", log(F, []) + b"\7"
    yield "refused_03_none", plan(0, 1, [read([0], 1)])
    yield "refused_03_thirty_three", plan(33, 1, [read([0], 1)])
    yield "refused_04_none", plan(1, 0, [read([0], 1)])
    yield "refused_04_sixty_five", plan(1, 65, [read([0], 1)])
    yield "refused_05_none", bytes([1, 1, 0])
    yield "refused_05_sixty_five", bytes([1, 1, 65])
    yield "refused_06", plan(1, 1, [entry(2, [0], 1)])
    yield "refused_07_empty", plan(1, 1, [read([], 1)])
    yield "refused_07_not_counted", plan(1, 1, [read([1], 1)])
    yield "refused_08", plan(1, 1, [read([0], 0)])
    yield "refused_09_verb", log(F, F_CALLS[:2] + [bytes([255, 0, 0, 9, 0, 0, 0, 0])] + F_CALLS[2:])
    yield "refused_09_verb_4", log(F, F_CALLS[:2] + [bytes([4, 0, 0, 9, 0, 0, 0, 0])] + F_CALLS[2:])
    yield "refused_09_complete_with_entry", log(F, F_CALLS[:2] + [bytes([1, 0, 1, 9, 0, 0, 0, 0])])
    yield "refused_09_withdraw_with_entry", log(F, F_CALLS[:2] + [bytes([2, 1, 1, 9, 0, 0, 0, 0])])
    yield "refused_10_one_less", log(PAIR, [issue(0, 0, 9), issue(1, 1, 8), issue(1, 1, 9)])
    yield "refused_11", log(PAIR, [issue(2, 0, 1), issue(255, 0, 1), complete(2, 1), complete(255, 2)])
    yield "refused_12", log(PAIR, [issue(0, 3, 1), issue(0, 255, 1), issue(0, 2, 1)])
    yield "refused_13", log(PAIR, [issue(0, 0, 1), issue(0, 1, 2), issue(1, 1, 2), issue(1, 1, 3)])
    yield "refused_14", log(PAIR, [complete(0, 1), issue(0, 0, 2), complete(0, 3), complete(0, 4)])
    yield "refused_15_entitled", log(PAIR, [issue(0, 0, 1), issue(1, 1, 2), complete(1, 3), complete(0, 4), complete(1, 5)])
    yield "refused_15_waiting", log(plan(2, 1, [write([0], 4)]), [issue(0, 0, 1), issue(1, 0, 2), complete(1, 3)])
    yield "refused_17_read", log(PAIR, [issue(0, 1, 1), withdraw(0, 2), complete(0, 3)])
    yield "refused_17_write", log(PAIR, [issue(0, 0, 1), withdraw(0, 1), complete(0, 3)])
    yield "order_of_a_withdrawal", log(PAIR, [issue(0, 0, 5), withdraw(9, 4), withdraw(2, 5), withdraw(1, 5), withdraw(0, 5)])
    yield "refused_10_handover", log(PAIR, [issue(0, 0, 9), handover(0, 1, 8), handover(0, 1, 9)])
    yield "refused_11_handover", log(PAIR, [issue(0, 0, 1), handover(2, 1, 2), handover(255, 1, 2), handover(0, 1, 2)])
    yield "refused_12_handover", log(PAIR, [issue(0, 0, 1), handover(0, 3, 2), handover(0, 255, 2), handover(0, 2, 2)])
    yield "refused_14_handover", log(PAIR, [handover(0, 0, 1), issue(0, 0, 2), complete(0, 3), handover(0, 0, 4), issue(0, 0, 1)])
    yield "refused_15_handover", log(plan(3, 1, [write([0], 4), read([0], 4)]), [issue(0, 0, 1), issue(1, 0, 2), issue(2, 1, 2), handover(1, 0, 3), handover(2, 1, 3), handover(0, 0, 3)])
    yield "order_of_a_handover", log(PAIR, [
        issue(0, 0, 5), handover(9, 9, 4), handover(1, 3, 4), handover(0, 3, 4), handover(2, 3, 5), handover(1, 3, 5), handover(1, 0, 5),
        issue(1, 1, 5), handover(1, 0, 4), handover(1, 3, 5), handover(1, 0, 5), handover(0, 3, 5), handover(0, 1, 5), complete(1, 5), complete(0, 5),
    ])
    # The holder holds on from its grant, and the refused tick counts nowhere.
    yield "refused_handover_changes_nothing", log(PAIR, [issue(0, 0, 1), issue(1, 1, 2), handover(0, 3, 19), handover(1, 2, 19), issue(1, 2, 3), complete(0, 21), complete(1, 26)])
    yield "order_10_before_11", log(PAIR, [issue(0, 0, 5), issue(9, 9, 4), complete(9, 4)])
    yield "order_11_before_12", log(PAIR, [issue(2, 3, 5)])
    yield "order_12_before_13", log(PAIR, [issue(0, 0, 5), issue(0, 3, 5)])
    yield "order_14_before_15", log(PAIR, [complete(1, 5), issue(0, 0, 5), issue(1, 1, 5), complete(1, 5)])
    yield "order_9_before_10", log(PAIR, [issue(0, 0, 5), bytes([7, 9, 9, 1, 0, 0, 0, 0])])
    yield "order_1_before_9", log(PAIR, [issue(0, 0, 5), bytes([7, 9, 9, 1, 0, 0, 0])], 2)


def boards():
    """Wrong turns, edges of the counts, and boards that a newcomer can read."""
    yield "no_calls", log(F, [])
    yield "read_passes_waiting_write", log(F, [issue(0, 0, 0), issue(1, 1, 1), issue(3, 3, 3)])
    yield "write_behind_waiting_write", log(F, [issue(0, 0, 0), issue(1, 1, 1), issue(2, 2, 2)])
    yield "reads_before_the_next_write", log(F, F_CALLS[:7])
    yield "two_issues_at_one_tick", log(plan(3, 1, [write([0], 4)]), [issue(2, 0, 5), issue(1, 0, 5), issue(0, 0, 5), complete(2, 5), complete(1, 5), complete(0, 5)])
    widened = plan(3, 3, [write([0], 9), read([0, 1], 4), read([1], 4)])
    yield "read_of_a_widened_resource", log(widened, [issue(0, 0, 1), issue(1, 2, 2), issue(2, 1, 3), complete(0, 4), complete(1, 5)])
    yield "one_processor", log(ONE, [issue(0, 0, 0), complete(0, 7), issue(0, 0, 7), complete(0, 15), issue(0, 1, 15), complete(0, 18)])
    sixteen = plan(16, 1, [write([0], 1), read([0], 2)])
    calls = [issue(p, p % 2, p) for p in range(16)]
    order = (0, 1, 3, 5, 7, 9, 11, 13, 15, 2, 4, 6, 8, 10, 12, 14)
    calls += [complete(p, 20 + i) for i, p in enumerate(order)]
    yield "sixteen_processors", log(sixteen, calls)
    entries = [write([i], i + 1) if i % 3 == 0 else read([i, (i + 1) % 64], i + 1) for i in range(64)]
    full = plan(16, 64, entries)
    yield "sixty_four_entries_and_resources", log(full, [issue(p, p * 4, p) for p in range(16)] + [complete(p, 100 + p) for p in range(16)])
    yield "hold_of_20_and_21", log(F, [issue(0, 1, 0), complete(0, 20), issue(0, 1, 20), complete(0, 41)])
    yield "last_tick", log(PAIR, [issue(0, 0, LAST), complete(0, LAST), issue(0, 0, LAST - 1)])
    yield "repeated_tick", log(PAIR, [issue(0, 0, 4), issue(1, 2, 4), complete(1, 4), complete(0, 4)])
    yield "readers_share", log(plan(3, 1, [read([0], 4), write([0], 4)]), [issue(0, 0, 1), issue(1, 0, 2), issue(2, 1, 3), complete(0, 4), complete(1, 5), complete(2, 6)])
    yield from withdrawals()
    yield from handovers()
    yield from wide_boards(entries)
    rng = random.Random(7)
    for size in (60, 300):
        yield f"busy_board_{size}", log(full, busy(rng, 16, entries, size))


def wide_boards(entries):
    """Boards of more than 16 processors: masks have eight digits, whatever is in them."""
    for m in (17, 32):
        wide = plan(m, 1, [write([0], 1), read([0], 2)])
        calls = [issue(p, p % 2, p) for p in range(m)]
        order = [0] + [p for p in range(m) if p % 2] + [p for p in range(2, m, 2)]
        calls += [complete(p, 40 + i) for i, p in enumerate(order)]
        yield f"{m}_processors", log(wide, calls)
        yield f"{m}_processors_low_masks", log(wide, [issue(0, 0, 1), issue(m - 1, 0, 2), issue(m, 0, 3), complete(0, 4), issue(255, 0, 4)])
    rng = random.Random(8)
    for m, size in ((24, 300), (32, 300)):
        yield f"busy_board_of_{m}", log(plan(m, 64, entries), busy(rng, m, entries, size))


def withdrawals():
    """Requests that leave the line, in each phase that they may leave in."""
    line = plan(5, 2, [write([0], 9), read([0], 4), write([0, 1], 9), read([1], 4)])
    # A read holds, a write is entitled behind it, reads wait behind the write: it leaves, and they hold.
    yield "withdrawn_write_leaves_reads", log(line, [issue(0, 1, 1), issue(1, 0, 2), issue(2, 1, 3), issue(3, 1, 4), withdraw(1, 5), complete(0, 6), complete(2, 7), complete(3, 8)])
    yield "withdrawn_write_leaves_next_write", log(line, [issue(0, 1, 1), issue(1, 0, 2), issue(2, 2, 3), issue(3, 1, 4), withdraw(1, 5), complete(0, 6), complete(3, 7), complete(2, 9)])
    yield "withdrawn_waiting_write", log(line, [issue(0, 0, 1), issue(1, 0, 2), issue(2, 0, 3), withdraw(1, 4), complete(0, 5), complete(2, 6)])
    yield "withdrawn_waiting_read", log(line, [issue(0, 1, 1), issue(1, 0, 2), issue(2, 1, 3), withdraw(2, 4), complete(0, 5), complete(1, 6)])
    yield "withdrawn_entitled_read", log(line, [issue(0, 0, 1), issue(1, 1, 2), issue(2, 0, 3), withdraw(1, 4), complete(0, 5), complete(2, 6)])
    yield "withdrawn_and_issued_again", log(line, [issue(0, 0, 1), issue(1, 0, 2), withdraw(1, 3), withdraw(1, 3), issue(1, 1, 3), complete(0, 4), complete(1, 5)])


def handovers():
    """Completions and issues in one call, settled after each half."""
    one = plan(3, 1, [write([0], 20), read([0], 5)])
    # A write holds and a write waits: the holder hands over to a read. The write holds first, and the read is next in line.
    yield "handover_settles_twice", log(one, [issue(0, 0, 1), issue(1, 0, 2), handover(0, 1, 3), complete(1, 4), complete(0, 5)])
    # To the end of the line each time, also for the entry that was held.
    yield "handover_goes_to_the_end", log(one, [issue(0, 0, 1), issue(1, 0, 2), issue(2, 0, 3), handover(0, 0, 4), handover(1, 0, 4), handover(2, 1, 5), handover(0, 1, 6), handover(1, 1, 7)])
    yield "handover_late", log(ONE, [issue(0, 0, 0), handover(0, 0, 7), handover(0, 1, 15), handover(0, 1, 18), handover(0, 0, 22), complete(0, 29)])
    # Readers that hand over to reads do not pass the entitled write, and the write that hands over does not pass them.
    yield "handover_of_readers", log(one, [issue(0, 1, 1), issue(1, 1, 2), issue(2, 0, 3), handover(0, 1, 4), handover(1, 1, 5), handover(2, 0, 6), complete(0, 7), complete(1, 8), complete(2, 9)])
    line = plan(5, 2, [write([0], 9), read([0], 4), write([0, 1], 9), read([1], 4)])
    yield "handover_through_a_line", log(line, [issue(0, 1, 1), issue(1, 1, 2), issue(2, 0, 3), issue(3, 1, 4), handover(0, 0, 5), handover(1, 3, 6), complete(2, 7), complete(3, 8), handover(0, 2, 9), complete(1, 10), complete(0, 11)])
    yield "handover_and_withdrawal", log(one, [issue(0, 0, 1), issue(1, 0, 2), handover(0, 1, 3), withdraw(0, 4), handover(0, 1, 5), handover(1, 1, 6), complete(1, 7)])
    yield "handover_at_the_last_tick", log(PAIR, [issue(0, 0, LAST), handover(0, 1, LAST), handover(0, 0, LAST - 1), handover(0, 0, LAST)])
    rng = random.Random(6)
    entries = [write([i % 5], i + 1) if i % 3 == 0 else read([i % 5, (i + 1) % 5], i + 1) for i in range(12)]
    calls = [call if rng.random() < 0.6 else bytes([HANDOVER, call[1], rng.randrange(13)]) + call[3:] for call in busy(rng, 6, entries, 200)]
    yield "busy_board_handing_over", log(plan(6, 5, entries), calls)


def busy(rng, processors, entries, size):
    """Calls that mostly fit, with wrong ones among them."""
    calls, tick = [], 0
    for _ in range(size):
        tick += rng.choice((0, 0, 1, 3, 17))
        p = rng.randrange(processors + (rng.random() < 0.05))
        if rng.random() < 0.5:
            calls.append(issue(p, rng.randrange(len(entries) + (rng.random() < 0.05)), tick))
        else:
            calls.append(complete(p, max(0, tick - (rng.random() < 0.05))))
    return calls


def cuts():
    """Plan F's log cut at every byte of its plan, its count and its first two calls."""
    whole = log(F, F_CALLS)
    for end in range(len(F) + 2 + 16 + 1):
        yield f"cut_{end:03}", whole[:end]


def largest(calls=65535):
    """Calls on a saturated board: each processor completes as soon as it holds, as far as a guess goes."""
    rng = random.Random(11)
    entries = [write([i, (i * 5) % 64], i + 1) if i % 3 == 0 else read([i, (i + 9) % 64], i + 1) for i in range(64)]
    return log(plan(16, 64, entries), busy(rng, 16, entries, calls))


def main():
    if sys.argv[1] == "--largest":
        sys.stdout.buffer.write(largest(*map(int, sys.argv[2:])))
        return
    folder = pathlib.Path(sys.argv[1])
    for name, data in [("plan_f", log(F, F_CALLS)), *refusals(), *boards(), *cuts()]:
        (folder / f"{name}.log").write_bytes(data)


if __name__ == "__main__":
    main()
