"""The lock's code beside its models: recorded periods are replayed as events of `Crowd.antt` and
turns of `Turns.antt`.

That each access of the code is a turn is by inspection. So each access of runs of 4 and of 16
threads is looked at here. lock/record.c gives the threads their turns in an order that a seed
picks. lock/replay.py says what it refuses.
"""
import collections
import functools
import shutil
import subprocess

import pytest
from lock import crowd, explore, recorder, rounds
from lock.replay import PLACES, Access, Recording, Refused, Replay, recording

from support import same

# Threads, slices of each, and the order of their turns. A call that is short is a draw too.
RUNS = [(threads, slices, order) for threads, slices in ((4, 10), (16, 5))
        for order in recorder.ORDERS]
CALLS = 2 * recorder.LEAVES
EVENTS = {*crowd.AFTER, "Give"} - {"SpuriousWake"}
LOCK, OF_PLACES = 0, 1


@pytest.fixture(scope="module")
def record(program, tmp_path_factory):
    """The recorder."""
    lacks = recorder.lacks(program.path)
    if lacks:
        pytest.skip(lacks)
    return recorder.built(str(tmp_path_factory.mktemp("recorder")))


@pytest.fixture(scope="module")
def made(program, record):
    """Recorded periods by threads and order: the slices of each, the run and the answers."""
    found = {}
    for threads, slices, order in RUNS:
        run = recorder.period(record, program.path, threads, slices, order, 1)
        found[threads, order] = slices, recording(run.text), run.answers
    return found


@functools.cache
def steps_of(run, threads, calls):
    return Replay(run, threads, calls).all()


def replayed(made, threads, order):
    slices, run, _ = made[threads, order]
    return steps_of(run, threads, slices + CALLS)


def silent_in_a_row(steps):
    """The most accesses in a row of one seat that stand for no event."""
    most, now = 0, collections.Counter()
    for step in steps:
        now[step.seat] = 0 if step.events else now[step.seat] + 1
        most = max(most, now[step.seat])
    return most


@pytest.mark.parametrize("threads, slices, order", RUNS)
def test_recorded_run(made, threads, slices, order, record_property):
    """Each access is possible in both models. The premises of their laws hold of the run, and what
    they promise does: tickets in order, each within its rounds."""
    steps = replayed(made, threads, order)
    same(made[threads, order][2], f"ok\nok\nok\nok\nserved {threads * slices}\n")
    drawn = steps[-1].crowd.next
    assert threads * slices <= drawn <= threads * (slices + CALLS)
    owners = [step.seat for step in steps for event in step.events if event.name == "Take"]
    same([step.turn.seat for step in steps if step.turn and step.turn.name == "Serves"], owners,
         "tickets in order")
    events, accesses = (rounds.still_moves(steps, every) for every in (False, True))
    turns = rounds.turn_moves(steps)
    assert 1 <= rounds.greatest(events) <= rounds.CROWD_ROUNDS
    # of two accesses in a row that a seat makes, one at least is an event
    assert silent_in_a_row(steps) == 1
    assert rounds.greatest(accesses) <= rounds.ACCESS_ROUNDS
    assert rounds.most_for_a_ticket(events) <= rounds.CROWD_ROUNDS
    assert rounds.most_for_a_ticket(accesses) <= rounds.ACCESS_ROUNDS
    assert rounds.most_for_a_ticket(turns) <= rounds.TURN_ROUNDS
    said = (f"{drawn} tickets, {len(steps)} accesses; most rounds that raised what is served: "
            f"{rounds.greatest(events)} of events ({rounds.CROWD_ROUNDS} proved), "
            f"{rounds.greatest(accesses)} of accesses ({rounds.ACCESS_ROUNDS} proved), "
            f"{rounds.greatest(turns)} of turns")
    record_property("rounds", said)
    print(said)


def test_all_states_of_two_seats():
    """The most rounds that raise what is served, in the model and of the accesses of the code."""
    same(explore.most_rounds(2, explore.model_steps), (1119, 12))
    same(explore.most_rounds(2, explore.code_steps), (709, 13))


def test_each_event_occurs(made):
    """The runs together have each event of the model, but a sleep that ends for no reason."""
    found = {event.name for threads, _, order in RUNS
             for step in replayed(made, threads, order) for event in step.events}
    same(found, EVENTS)


def test_what_may_be_left_out(made):
    """A run without one of its accesses is refused, unless that one is a look that left its seat
    where it was. So is each load that stands for no event."""
    slices, run, _ = made[4, "even"]
    steps, found = replayed(made, 4, "even"), collections.Counter()
    for at, step in enumerate(steps[:150]):
        is_idle_look = (step.crowd == steps[at + 1].crowd
                        and [event.name for event in step.events] == ["Look"])
        try:
            Replay(without(run, at), 4, slices + CALLS).all()
        except Refused:
            found["refused"] += 1
        else:
            assert is_idle_look, (at, step.events)
            found["let go"] += 1
    assert found["refused"] > 100 and found["let go"] > 0, found


# Wrong runs


def first(run: Recording, kind: str, block: int, fits=lambda access: True, begin: int = 0) -> int:
    """The first access of a kind in the lock's table or that of places."""
    number = (run.lock, run.places)[block]
    return next(at for at, access in enumerate(run.accesses) if at >= begin
                and access.kind == kind and access.block == number and fits(access))


def without(run: Recording, *left_out: int) -> Recording:
    return run._replace(accesses=tuple(access for at, access in enumerate(run.accesses)
                                       if at not in left_out))


def changed(run: Recording, at: int, **values: int) -> Recording:
    accesses = list(run.accesses)
    accesses[at] = accesses[at]._replace(**values)
    return run._replace(accesses=tuple(accesses))


def is_hint(access: Access) -> bool:
    return access.word >= PLACES


def is_posted(access: Access) -> bool:
    return access.word < PLACES and access.after % 8 == 3


def is_given(access: Access) -> bool:
    return access.word < PLACES and access.after % 8 == 4


def wake_is_left_out(run):
    return without(run, first(run, "wake", OF_PLACES))


def another_is_woken(run):
    at = first(run, "wake", OF_PLACES)
    return changed(run, at, word=(run.accesses[at].word + 1) % 4)


def wake_reaches_nobody(run):
    return changed(run, first(run, "wake", OF_PLACES, lambda access: access.result), result=0)


def wake_comes_before_the_give(run):
    at = first(run, "swap", OF_PLACES, is_given)
    by = run.accesses[at].thread
    wake = first(run, "wake", OF_PLACES, lambda access: access.thread == by, at)
    accesses = list(run.accesses)
    accesses.insert(at, accesses.pop(wake))
    return run._replace(accesses=tuple(accesses))


def ticket_is_served_twice(run):
    at = first(run, "add", LOCK, lambda access: access.word == 1)
    served = run.accesses[at]
    again = served._replace(before=served.after, after=served.after + 1)
    return run._replace(accesses=(*run.accesses[:at + 1], again, *run.accesses[at + 1:]))


def ticket_is_passed_over(run):
    at = first(run, "add", LOCK, lambda access: access.word == 1)
    return changed(run, at, after=run.accesses[at].after + 1)


def ticket_is_drawn_by_a_seat_that_has_one(run):
    at = first(run, "add", LOCK, lambda access: access.word == 0)
    return changed(run, at + 1, **dict(run.accesses[at]._replace(before=1, after=2)._asdict()))


def seat_never_wakes(run):
    """Cut behind a sleep."""
    at = first(run, "sleep", OF_PLACES, lambda access: access.result)
    return run._replace(accesses=run.accesses[:at + 1])


def sleeper_makes_an_access(run):
    at = first(run, "sleep", OF_PLACES, lambda access: access.result)
    look = run.accesses[first(run, "load", LOCK, lambda access: access.word == 1, at)]
    look = look._replace(thread=run.accesses[at].thread)
    return run._replace(accesses=(*run.accesses[:at + 1], look, *run.accesses[at + 1:]))


def second_look_is_left_out(run):
    at = first(run, "sleep", OF_PLACES, lambda access: access.given % 8 == 3)
    by = run.accesses[at].thread
    return without(run, max(k for k in range(at) if run.accesses[k].thread == by))


def sleep_compares_another_state(run):
    at = first(run, "sleep", OF_PLACES)
    return changed(run, at, given=run.accesses[at].given + 8)


def hint_is_left_out(run):
    return without(run, first(run, "swap", OF_PLACES, is_hint))


def hint_is_of_another_place(run):
    at = first(run, "swap", OF_PLACES, is_hint)
    return changed(run, at, after=run.accesses[at].after ^ 1)


def seat_is_helped_without_a_claim(run):
    return without(run, first(run, "cas", OF_PLACES, lambda access: access.after % 8 == 2))


def seat_is_not_given_back(run):
    return without(run, first(run, "swap", OF_PLACES, is_given))


def seat_is_lent_in_another_place(run):
    at = first(run, "swap", OF_PLACES, is_posted)
    return changed(run, at, word=(run.accesses[at].word + 1) % 4)


def mark_is_stored(run):
    """An access of the lock's own waiting, which no lent seat makes."""
    at = first(run, "swap", OF_PLACES)
    return changed(run, at, block=run.lock, word=2, before=0, after=1)


def store_is_not_atomic(run):
    return changed(run, first(run, "swap", OF_PLACES), kind="move")


PLANTED = [wake_is_left_out, another_is_woken, wake_reaches_nobody, wake_comes_before_the_give,
           ticket_is_served_twice, ticket_is_passed_over, ticket_is_drawn_by_a_seat_that_has_one,
           seat_never_wakes, sleeper_makes_an_access, second_look_is_left_out,
           sleep_compares_another_state, hint_is_left_out, hint_is_of_another_place,
           seat_is_helped_without_a_claim, seat_is_not_given_back, seat_is_lent_in_another_place,
           mark_is_stored, store_is_not_atomic]


@pytest.mark.parametrize("plant", PLANTED, ids=lambda plant: plant.__name__)
def test_wrong_run_is_refused(made, plant):
    slices, run, _ = made[4, "even"]
    Replay(run, 4, slices + CALLS).all()
    with pytest.raises(Refused):
        Replay(plant(run), 4, slices + CALLS).all()


@pytest.mark.parametrize("text, why", [
    ("", "did not end: nothing"), ("block 0 528\nstuck\n", "did not end: stuck"),
    ("block 0 528\nend\n", "0 blocks are the lock's"),
    ("block 0 528\nblock 1 528\n0 add 0 0 0 1 0 0\n0 add 1 0 0 1 0 0\nend\n",
     "2 blocks are the lock's"),
    ("block 0 528\n0 load 0 4 0 0 0 0\nend\n", "a part of a word")])
def test_wrong_lines_are_refused(text, why):
    with pytest.raises(Refused, match=why):
        recording(text)


# A thread that sleeps on a watched word, where nobody wakes it.
SLEEPS = """
#define _GNU_SOURCE
#include <linux/futex.h>
#include <pthread.h>
#include <stdint.h>
#include <stdlib.h>
#include <sys/syscall.h>
#include <unistd.h>
static void *body(void *word) {
    uint64_t one = __atomic_fetch_add((uint64_t *)word, 1, __ATOMIC_SEQ_CST) + 1;
    syscall(SYS_futex, word, FUTEX_WAIT_PRIVATE, one, 0, 0, 0);
    return 0;
}
int main(void) {
    pthread_t thread;
    uint64_t *word = malloc(528);
    *word = 0;
    return pthread_create(&thread, 0, body, word) || pthread_join(thread, 0);
}
"""


def test_sleep_of_all_is_told(record, scratch):
    """The recorder ends a run in which each thread that is left sleeps."""
    (scratch / "sleeps.c").write_text(SLEEPS)
    words = [shutil.which("cc"), "-O1", "-pthread", "-o", scratch / "sleeps", scratch / "sleeps.c"]
    subprocess.run(words, check=True)
    run = recorder.recorded(record, [str(scratch / "sleeps")], "", 1, "even", 1)
    same(run.text, "block 0 528\n0 add 0 0 0 1 0 0\n0 sleep 0 0 1 1 1 1\nstuck\n")
