"""The rows: what is played, to which servers, in which sizes and time, and what it has to come to."""
import collections

from . import costs, holding, process

# `sizes` are those of the long form, `short` those of the short one or None; `seconds` bounds a play on one server.
# `judge` is given what was seen by name of the server, and whether it was the short form: what ours misses, or None.
Row = collections.namedtuple("Row", "letter attack wanted servers play sizes short seconds judge")

OURS, BOTH, THREE = ("ours",), ("ours", "bird"), ("ours", "bird", "openbgpd")
# The server that a row's verdict needs beside ours.
NEEDED = {"j": "bird-tables"}
# What a change may wait beyond the bound of a row, in seconds, since the machine has other work too.
SLACK, SHORT_SLACK, FLOOD_SLACK = 0.1, 0.5, 0.001


def missed(*them):
    """The words of the first that isn't met, of pairs of a condition and words."""
    return next((words for met, words in them if not met), None)


def slack(short):
    return SHORT_SLACK if short else SLACK


def no_session_is_lost(seen, short):
    many = seen["ours"].figures["lost"]
    return missed((many == 0, f"{many} sessions lost"))


def chains_cost_nothing(seen, short):
    it = seen["ours"].figures
    more = slack(short)
    kinds = [kind for kind in ("", " stripped") if f"chosen{kind} wait" in it]
    return missed(
        (it["lost"] == 0, "sessions lost"),
        *((it[f"{which}{kind} late"] < float("inf"), "a late member is not told all") for kind in kinds for which in ("plain", "chosen")),
        *((it[f"chosen{kind} wait"] <= 2 * it[f"plain{kind} wait"] + more, "a change waits longer than with other attributes") for kind in kinds),
        *((it[f"chosen{kind} late"] <= 2 * it[f"plain{kind} late"] + more, "a late member waits longer than with other attributes") for kind in kinds),
    )


def flood_is_borne(seen, short):
    it = seen["ours"].figures
    return missed((it["lost"] == 0, "sessions lost"), (it["over"] <= (SHORT_SLACK if short else FLOOD_SLACK), "p99 is more than twice that without the flood"))


def streams_are_borne(seen, short):
    it = seen["ours"].figures
    return missed(
        (it["lost"] == 0, "sessions lost"),
        (it["over"] <= SHORT_SLACK, "a change waits for the reader"),
        (it["lines"] > 0, "no line comes once somebody reads again"),
    )


def stale_routes_go(seen, short):
    took = seen["ours"].figures["took"]
    return missed((took <= 12, "stale routes are kept for more than 10 s"))


def given_up_is_free(seen, short):
    it = seen["ours"].figures
    more = 0.000_1 if short else 0.000_05
    return missed((it["after"] <= 1.5 * it["before"] + more, "a round costs more than before"))


def wide_is_cheap(seen, short):
    it = seen["ours"].figures
    return missed(
        (it["many"] <= 2 * it["few"] + SLACK, "it takes more than twice as long as a few less"),
        (it["many used"] <= 2 * it["few used"] + 0.01, "it costs more than twice what a few less cost"),
    )


def no_long_silence(seen, short):
    it = seen["ours"].figures
    return missed((it["lost"] == 0, "sessions lost"), (it["longest"] <= 2 + SHORT_SLACK, "a change waits more than 2 s"))


def no_later_than_birds(seen, short):
    mine = seen["ours"].figures
    theirs = seen.get("bird-tables")
    bound = theirs.figures["middle"] if theirs and theirs.figures else float("inf")
    return missed((mine["lost"] == 0, "sessions lost"), (mine["middle"] <= bound, "p50 is above that of BIRD with tables"))


def slow_is_cheap(seen, short):
    it = seen["ours"].figures
    return missed((it["lost"] == 0, "sessions lost"), (it["now"] <= 2 * it["before"] + 0.000_5, "a change costs more while routes wait"))


def holders_are_linear(seen, short):
    it = seen["ours"].figures
    return missed((it["many"] <= 1.4 * it["times"] * it["few"] + 0.01, "it grows faster than the number of holders"))


def clients_are_free(seen, short):
    it = seen["ours"].figures
    return missed((it["many"] <= 2 * it["few"] + 0.000_002, "an event costs more with more clients"))


def file_is_read_well(seen, short):
    it = seen["ours"].figures
    return missed(
        (it["lost"] == 0, "sessions lost"),
        (it["half"] == 1, f"a file written in two halves was accepted {it['half']} times"),
        (it["reads"] <= 5, "an unchanged file is read more than once a second"),
        (it["processor"] <= 1.5, "a huge file costs processor time"),
        (it["memory"] <= 100, "a huge file costs memory"),
        (it["now"] <= 2 * it["before"] + SHORT_SLACK, "a change waits for the file"),
        (it["again"], "good rules are not taken after it"),
    )


def want_of_memory_is_told(seen, short):
    it = seen["ours"].figures
    return missed((it["wrong"] == 0, "want of memory is told otherwise"), (it["programs"] == 2, "one of the programs isn't there"))


def losses_are_told(seen, short):
    it = seen["ours"].figures
    return missed(
        (it["missing"] == 0, f"{it['missing']} ends of sessions are not told"),
        (it["refused"] > 0, "memory was refused to nobody"),
        (it["silent"] == 0, "want of memory ended a session without a line"),
    )


def signals_are_told(seen, short):
    it = seen["ours"].figures
    return missed((it["kept"], "SIGHUP ends it under nohup"), (it["said"], "the unit or OPERATING doesn't say it"))


ROWS = (
    Row(
        "a", "Routes whose attributes share one hash whatever its key, also once rules have changed them; then members come up who are owed them",
        "as fast as with other attributes", BOTH, costs.chains,
        dict(routes=50_000, late=9, most=60, members=10, base=1000, ruled=True), dict(routes=8000, late=1, most=12, members=3, base=300, ruled=False), 900,
        chains_cost_nothing,
    ),
    Row(
        "b", "ROUTE-REFRESH without end, and 178 at once", "others' p99 within twice that without the flood", BOTH, costs.refreshes,
        dict(members=10, routes=10_000, seconds=20, deaf=True, many=90_000), dict(members=5, routes=4000, seconds=6, deaf=False, many=0), 480, flood_is_borne,
    ),
    Row(
        "c", "The server stands still beside 40 members with Hold Time 9 that send KEEPALIVEs", "no session lost", THREE, holding.stalls,
        dict(members=40, times=(8, 12)), dict(members=40, times=(8,)), 120, no_session_is_lost,
    ),
    Row(
        "d", "200 members send UPDATEs without end, Hold Time 9", "no session lost", THREE, holding.storm,
        dict(members=200, seconds=40), dict(members=200, seconds=14), 180, no_session_is_lost,
    ),
    Row(
        "e", "Nobody reads what the server prints", "BGP goes on, and lines come again once somebody reads", BOTH, process.streams,
        dict(kinds=("pipe", "terminal"), seconds=20), dict(kinds=("pipe",), seconds=5), 200, streams_are_borne,
    ),
    Row(
        "f", "Memory runs out while a large member is up; it goes", "stale routes for at most 10 s", BOTH, process.exhausted,
        dict(routes=400_000, most=40, more=40), None, 200, stale_routes_go,
    ),
    Row(
        "g", "Prefixes announced and withdrawn once, beside many members", "what was given up costs no round anything", BOTH, costs.given_up,
        dict(members=100, prefixes=50_000, count=300), dict(members=40, prefixes=20_000, count=150), 200, given_up_is_free,
    ),
    Row(
        "h", "A member touches a few more than 4,096 prefixes beside 500,000", "at most twice what 4,000 cost", BOTH, costs.wide,
        dict(members=10, routes=50_000, few=4000, many=4160, turns=9), None, 400, wide_is_cheap,
    ),
    Row(
        "i", "A large member comes up, rules are replaced, it is lost; four workers", "no change waits more than 2 s", OURS, costs.events,
        dict(sizes=(dict(members=60, routes=1000, big=5000, listed=55, most=60), dict(members=500, routes=200, big=50_000, listed=0, most=60))),
        None, 590, no_long_silence,
    ),
    Row(
        "j", "A session that flaps beside 100,000 routes", "others' p50 at most that of BIRD with a table for each client", (*BOTH, "bird-tables", "openbgpd"),
        costs.flapping, dict(members=10, routes=10_000, seconds=20), None, 300, no_later_than_birds,
    ),
    Row(
        "k", "A member that takes a message now and then while 500,000 routes wait for it", "a change costs what it added", BOTH, costs.behind,
        dict(members=10, routes=50_000, seconds=40), None, 400, slow_is_cheap,
    ),
    Row(
        "l", "400 holders of each prefix with falling identifiers beside 400 clients; one announces all anew", "no more than twice what 200 holders cost",
        BOTH, costs.holders, dict(few=200, many=400, prefixes=20), None, 400, holders_are_linear,
    ),
    Row(
        "m", "500 members send a KEEPALIVE at once", "each costs what it costs with 60 members", BOTH, costs.crowd,
        dict(few=60, many=500, times=20), None, 200, clients_are_free,
    ),
    Row(
        "n", "`--reload` beside a busy server: a file left alone, half written, a FIFO, of 3 GB", "read at most once a second, once it has been still for one; never half",
        OURS, process.reload, dict(size=3_000_000_000, seconds=12), dict(size=3_000_000_000, seconds=3), 150, file_is_read_well,
    ),
    Row(
        "o", "Memory is refused while the configuration is read", "`out of memory` and status 3, in both programs", OURS, process.starved,
        dict(clients=200, most=200), None, 400, want_of_memory_is_told,
    ),
    Row(
        "p", "Sessions end faster than a line a second, then for want of memory", "each loss is told, if only by its count", OURS, process.lines,
        dict(members=20, times=10, routes=150_000, more=8), None, 200, losses_are_told,
    ),
    Row(
        "q", "SIGHUP, SIGUSR1", "OPERATING warns, the unit sends none, `nohup` keeps it", OURS, process.signals, {}, None, 60, signals_are_told,
    ),
)
