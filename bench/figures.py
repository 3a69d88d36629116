"""What was seen of a work: figures of rsload's reports by column, and the file of them beside the page, from which the page is made."""
import csv
import io

# What stands for a figure that there is none of.
NONE = "-"


class Row:
    """One server's run of a work: its figures by column, what clients held wrongly, the load before it, and what went wrong."""

    def __init__(self, work, server, figures, wrong, load, faults):
        self.work, self.server, self.figures, self.wrong, self.load, self.faults = work, server, figures, wrong, load, faults

    @property
    def is_played(self):
        """Whether the server came up, and was played the work."""
        return bool(self.wrong)

    def figure(self, column):
        """The number in a column, or None."""
        text = self.figures.get(column, NONE)
        return None if text in (NONE, "") else float(text)


def value(report, phase, name):
    """A figure of a report, or None."""
    return report.get(phase, {}).get(name)


def shown(number, digits=3):
    """A figure with so many digits."""
    if number is None:
        return NONE
    if number >= 100 or number == int(number):
        return f"{number:.0f}"
    return f"{number:.{digits}g}"


def ratio(one, other, by=1.0):
    return None if one is None or not other else by * one / other


def wrong(report):
    """What clients hold that they should not, and the other way round."""
    found = []
    for phase in ("initial", "flap", "late"):
        for name, words in (("missing", "missing"), ("extra", "too many"), ("not_best", "not best"), ("altered", "altered")):
            if count := value(report, phase, name):
                found.append(f"{count:.0f} {words}" + (f" ({phase})" if phase != "initial" else ""))
    for name, words in (("own_returned", "sent back"), ("altered_prefixes", "told altered"), ("drops", "sessions lost"), ("malformed", "malformed")):
        if count := value(report, "whole", name):
            found.append(f"{count:.0f} {words}")
    return ", ".join(found) or "nothing"


def told(report, phase):
    """Routes that all clients together were told."""
    return value(report, phase, "announced") or None


# Each figure: its column, and where it stands in a report.
COLUMNS = (
    ("converged s", lambda it: value(it, "initial", "complete_s")),
    ("CPU s", lambda it: value(it, "initial", "server_cpu_s")),
    ("us/route", lambda it: ratio(value(it, "initial", "server_cpu_s"), told(it, "initial"), 1e6)),
    ("octets/route", lambda it: ratio(value(it, "whole", "server_peak_mb"), value(it, "initial", "due"), 2**20)),
    ("peak MB", lambda it: value(it, "whole", "server_peak_mb")),
    ("UPDATEs", lambda it: value(it, "initial", "updates")),
    ("one p50 ms", lambda it: value(it, "single", "announce_ms_p50")),
    ("one p99 ms", lambda it: value(it, "single", "announce_ms_p99")),
    ("gone p50 ms", lambda it: value(it, "single", "withdraw_ms_p50")),
    ("gone p99 ms", lambda it: value(it, "single", "withdraw_ms_p99")),
    ("flap gone s", lambda it: value(it, "flap", "withdrawn_s")),
    ("back s", lambda it: value(it, "flap", "reannounced_s")),
    ("late s", lambda it: value(it, "late", "full_s")),
    ("CPU in all s", lambda it: value(it, "whole", "server_cpu_s")),
    ("held MB", lambda it: value(it, "initial", "server_rss_mb")),
    ("behind flap MB", lambda it: value(it, "flap", "server_rss_mb")),
    ("behind late MB", lambda it: value(it, "late", "server_rss_mb")),
)


def faults(report):
    """What went wrong in each phase, in rsload's words; of a server that did not come up, why."""
    found = [f"{phase}: {it['fault']}" for phase, it in report.items() if isinstance(it, dict) and "fault" in it]
    if differences := value(report, "whole", "attribute_differences"):
        found.append(f"altered attributes: {differences}")
    if "initial" not in report:
        found.append(report.get("fault", "it did not come up"))
    return "; ".join(found)


def row(work, server, report, load):
    """The row of a report."""
    if "initial" not in report:
        return Row(work, server, {}, "", load, faults(report))
    return Row(work, server, {name: shown(figure(report)) for name, figure in COLUMNS}, wrong(report), load, faults(report))


def least(rows, work, server, column):
    """The least figure of a server's runs of a work, or None."""
    found = [it.figure(column) for it in rows if it.work == work and it.server == server]
    return min((it for it in found if it is not None), default=None)


def written(about, rows):
    """All that the page is made of as lines with commas between them: what is said of the run first, each behind a `#`."""
    text = io.StringIO()
    lines = csv.writer(text, lineterminator="\n")
    for name, words in about:
        text.writelines(f"# {name}: {it}\n" for it in words.splitlines())
    lines.writerow(["Work", "Server", *(name for name, _ in COLUMNS), "wrong", "load", "faults"])
    for it in rows:
        lines.writerow([it.work, it.server, *(it.figures.get(name, "") for name, _ in COLUMNS), it.wrong, f"{it.load:.1f}", it.faults])
    return text.getvalue()


def read(text):
    """What `written` wrote."""
    lines, about = text.splitlines(), []
    while lines[0].startswith("# "):
        name, _, words = lines.pop(0)[2:].partition(": ")
        about.append((name, words))
    rows = []
    for it in csv.DictReader(lines):
        own = {name: it[name] for name, _ in COLUMNS if it.get(name)}
        rows.append(Row(it["Work"], it["Server"], own, it["wrong"], float(it["load"]), it["faults"]))
    return about, rows
