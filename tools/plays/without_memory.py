"""Runs tests of rs_tests where their requests for memory are counted, or one is refused, and says what went wrong.

play.py without_memory TESTS

TESTS is the built tests of rs_tests. Those of calls that take no memory print a line before such calls and one behind
them: between the two no memory may be asked for.

A test of how much room attributes take prints a line before they are read and one behind: between the two no more may be
held than what they are.

Another test runs with one request refused, another one in each run. It turns an outlet at its end, and says so where
memory was refused to that turn: then it must pass, which it does where nothing but the answer of the last turn has
changed. Where memory is refused before or behind the turn the test can't go on, and fails without a word of the turn.
"""
import pathlib
import subprocess
import tempfile

from .preloading import built, run_test


TEST = "outlet::refused::a_refused_turn_changes_nothing_but_last"
SAID = b"memory was refused to a turn"
# The tests of calls that take no memory, and what both of their lines say.
ASKING = (
    "outlet::asking::a_message_behind_two_turns",
    "outlet::asking::messages_of_a_client_that_takes_one_behind_each_turn",
    "outlet::asking::a_message_of_a_client_that_took_none",
    "outlet::asking::all_again",
    "outlet::asking::touches_and_the_end_of_a_session",
    "outlet::asking::rows_of_another_in_place_of_the_same",
    "route_server::asking::what_is_lent_behind_two_turns",
    "route_server::asking::a_refresh",
    "route_server::asking::how_a_session_begins_and_ends",
)
MARK = "no memory is asked for"
# The test of attributes' room, what both of its lines say, and how many octets may be held: 200 heads of 8 octets and 200
# values of an octet, with what the allocator adds to each of two blocks.
ROOM = "attrs::room::a_thousand_attributes_of_one_octet"
ROOM_MARK = "room is counted"
MOST = 200 * 8 + 200 + 2 * 16
SECONDS = 120
# So many of the last requests are refused, one after the other; the turn makes some of them.
LAST = 300


def run(program, library, test, refused, **variables):
    """Whether the test passed, what it printed, and the requests made (with HELD the octets held) by each line and in all."""
    variables = {"MARK": MARK, **variables}
    passed, said, told = run_test(program, test, library, "COUNTED", SECONDS, REFUSE=str(refused), **variables)
    return passed, said, [int(line) for line in told.split()] or [0]


def count_requests(program, library):
    """The result of each test of calls that take no memory."""
    for test in ASKING:
        passed, _, (*lines, requests) = run(program, library, test, 0)
        asked = sum(behind - before for before, behind in zip(lines[::2], lines[1::2]))
        wrong = None
        if not passed:
            wrong = "it failed"
        elif not requests or not lines or len(lines) % 2:
            wrong = "its requests were not counted"
        elif asked:
            wrong = f"memory was asked for {asked} times"
        yield f"without memory, {test}", wrong


def count_room(program, library):
    """The result of the test of attributes' room."""
    passed, _, lines = run(program, library, ROOM, 0, MARK=ROOM_MARK, HELD="1")
    wrong = None
    if not passed:
        wrong = "it failed"
    elif len(lines) != 3 or lines[1] <= lines[0]:
        wrong = "what it holds was not counted"
    elif lines[1] - lines[0] > MOST:
        wrong = f"{lines[1] - lines[0]} octets are held, and {MOST} are enough"
    yield f"without memory, {ROOM}", wrong


def refuse_requests(program, library):
    """The result of each refused turn, by the number of the request that was refused."""
    passed, _, (*_, requests) = run(program, library, TEST, 0)
    if not passed or not requests:
        yield "without memory", "the test fails though nothing was refused" if requests else "no request was seen"
        return
    turns = 0
    for refused in range(max(1, requests - LAST), requests + 1):
        passed, said, _ = run(program, library, TEST, refused)
        if SAID in said:
            turns += 1
            yield f"without memory, request {refused} of {requests}", None if passed else "more has changed than `last`"
    if not turns:
        yield "without memory", "memory was refused to no turn"


def play_memory(program):
    """The results of all these tests."""
    if not program.exists():
        yield "without memory", f"{program} isn't there"
        return
    try:
        with tempfile.TemporaryDirectory() as folder:
            library = built(folder, "refuse_memory")
            yield from count_requests(program, library)
            yield from count_room(program, library)
            yield from refuse_requests(program, library)
    except (OSError, subprocess.SubprocessError) as fault:
        yield "without memory", str(fault)


def by_words(words):
    """The results, by the words of a command behind the play's name; None where these are others."""
    if len(words) == 1:
        return play_memory(pathlib.Path(words[0]))
    return None
