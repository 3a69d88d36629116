#!/usr/bin/env python3
"""Records a built rs_served between two BIRDs, and holds the replay of the record against a packet capture of the same sessions.

recorded.py SERVED REPLAY [--changes N]

Wants bird2, tcpdump and python3-dpkt, and root for the capture. Two BIRDs are the members of examples/small.toml. By new
configurations they announce and withdraw routes at random, N changes in all (3,600, as many as an hour has at one a second);
meanwhile one of them is killed and comes again, and the rules are replaced twice. Then what tcpdump saw the server send on each
connection, as tools/from_capture.py puts it together, must be what the replay of the record sends, octet for octet; of the
connection that was killed, and of the last, which end while the server still speaks, a front.
"""
import argparse
import pathlib
import random
import subprocess
import sys
import tempfile
import time

TOP = pathlib.Path(__file__).resolve().parent.parent
SETTLING = 4
ROUND = 60


class Bird:
    """A BIRD with some static routes."""

    def __init__(self, room, name, base, first):
        self.room, self.name, self.first, self.on = room, name, first, set()
        self.text = (TOP / "examples" / base).read_text()
        self.config, self.control = room / f"{name}.conf", room / f"{name}.ctl"

    def write(self):
        routes = "".join(f"\troute 10.{self.first}.{it}.0/24 blackhole;\n" for it in sorted(self.on))
        self.config.write_text(self.text.replace("\tipv4;\n", "\tipv4;\n" + routes, 1))

    def start(self):
        self.write()
        self.process = subprocess.Popen(["bird", "-f", "-c", self.config, "-s", self.control], stderr=subprocess.DEVNULL)

    def ask(self, *words):
        subprocess.run(["birdc", "-s", self.control, *words], stdout=subprocess.DEVNULL, check=True)

    def change(self, choose):
        """Announces or withdraws so many routes."""
        self.on ^= set(choose.sample(range(250), ROUND))
        self.write()
        self.ask("configure")


def replaced(config, text):
    beside = config.with_name("new.toml")
    beside.write_text(text)
    beside.rename(config)
    time.sleep(SETTLING)


def play(room, served, changes):
    """The run; the record and the capture."""
    config, record, capture = room / "small.toml", room / "run", room / "run.pcap"
    text = (TOP / "examples/small.toml").read_text()
    config.write_text(text)
    choose = random.Random(7)
    tapped = subprocess.Popen(["tcpdump", "-i", "lo", "-U", "-w", capture, "tcp portrange 17901-17902"], stderr=subprocess.DEVNULL)
    time.sleep(1)
    server = subprocess.Popen([served, "--config", config, "--record", record, "--reload", "1", "--sessions", "3"], stdout=subprocess.DEVNULL)
    time.sleep(0.5)
    birds = [Bird(room, "alpha", "bird.conf", 1), Bird(room, "beta", "bird_beta.conf", 2)]
    for it in birds:
        it.start()
    time.sleep(2 * SETTLING)
    for at in range(changes // ROUND):
        birds[at % 2].change(choose)
        if at == changes // ROUND // 2:
            birds[0].process.kill()
            birds[0].process.wait()
            birds[0].start()
            time.sleep(2 * SETTLING)
    time.sleep(SETTLING)
    replaced(config, 'default = "drop"\n' + text)
    replaced(config, text)
    for it in birds:
        it.ask("down")
    server.wait(30)
    time.sleep(1)
    tapped.terminate()
    tapped.wait()
    return record, capture


def connections(lines, names=None):
    """What was sent on each connection of each member, by lines `sent NAME HEX`; one begins with an OPEN."""
    links = {}
    for line in lines:
        word, *rest = line.split(" ")
        if word == "sent":
            octets, name = bytes.fromhex(rest[1]), rest[0]
            if octets[18:19] == b"\x01":
                links.setdefault(name, []).append(b"")
            links[name][-1] += octets
    return links


def captured(room, capture):
    """What the capture says that the server sent."""
    words = ["/usr/bin/python3", TOP / "tools/from_capture.py", "--server", "127.0.0.1:17901", "--server", "127.0.0.1:17902", capture]
    sent = room / "run.sent"
    subprocess.run([*words, "--config", room / "c.toml", "--session", room / "c.trace", "--sent", sent], check=True)
    return connections(sent.read_text().splitlines())


def main():
    parser = argparse.ArgumentParser(description=__doc__.split("\n")[0])
    parser.add_argument("served")
    parser.add_argument("replay")
    parser.add_argument("--changes", type=int, default=3600)
    asked = parser.parse_args()
    with tempfile.TemporaryDirectory(prefix="recorded-") as folder:
        room = pathlib.Path(folder)
        record, capture = play(room, asked.served, asked.changes)
        replay = subprocess.run([asked.replay, "--config", f"{record}.toml"], stdin=record.open(), capture_output=True, check=True)
        due, seen = connections(replay.stdout.decode().splitlines()), captured(room, capture)
        failed = 0
        for name, other in (("alpha", "as64496"), ("beta", "as64497")):
            of_capture = next(links for it, links in seen.items() if it.startswith(other))
            if len(due[name]) != len(of_capture):
                print(f"{name}: {len(of_capture)} connections were seen, {len(due[name])} are replayed")
                failed += 1
                continue
            for at, (wanted, got) in enumerate(zip(due[name], of_capture)):
                alike = "alike" if wanted == got else "a front was seen" if wanted.startswith(got) else "different"
                print(f"{name}, connection {at + 1}: {len(got)} octets seen, {len(wanted)} replayed: {alike}")
                failed += alike == "different"
        return 1 if failed else 0


if __name__ == "__main__":
    sys.exit(main())
