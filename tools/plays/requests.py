"""Sends requests to the window of a built rs_served, and says which are answered otherwise than they must.

play.py requests PROGRAM

A row is what a visitor says and what the answer begins with. Behind what is no good request the connection ends; else it stays, and a
second request is answered. The answers are written by hand from RFC 9110 and RFC 9112; `window` looks at what pages say.
"""
import contextlib
import pathlib
import re

from peers.members import free_ports, serving

from .window import is_status, visitor

# A visitor who says nothing may stay for 10 seconds.
SOON = 5
# The last request on a connection.
END = b"GET /status HTTP/1.1\r\nHost: localhost\r\nConnection: close\r\n\r\n"


def long_request(target, field, more=0):
    """A request with a target and a field of so many octets, and so many fields more."""
    return b"GET /" + b"x" * target + b" HTTP/1.1\r\nHost: localhost\r\nX: " + b"x" * field + b"\r\nY: y" * more + b"\r\n\r\n"


# What is said, and what the answer begins with, behind which the connection ends.
REFUSED = (
    (b"POST /status HTTP/1.1\r\nHost: localhost\r\n\r\n", b"HTTP/1.1 405 Method Not Allowed\r\nAllow: GET, HEAD\r\n"),
    (b"get /status HTTP/1.1\r\nHost: localhost\r\n\r\n", b"HTTP/1.1 405 "),
    (b"\x16\x03\x01\x02\x00\x01\x00\x01\xfc\x03\x03", b"HTTP/1.1 400 Bad Request\r\n"),
    (b"GET /status\r\n", b"HTTP/1.1 400 "),
    (b"GET /status HTTP/2.0\r\n", b"HTTP/1.1 400 "),
    (b"GET /status HTTP/1.1\r\n\r\n", b"HTTP/1.1 400 "),
    (b"GET /status HTTP/1.1\r\nHost: localhost\r\nHost: localhost\r\n\r\n", b"HTTP/1.1 400 "),
    (b"GET /status HTTP/1.1\r\nHost: localhost\r\nContent-Length: 5\r\n\r\n", b"HTTP/1.1 400 "),
    (b"GET /status HTTP/1.1\r\nHost: localhost\r\nTransfer-Encoding: chunked\r\n\r\n", b"HTTP/1.1 400 "),
    (b"GET /status HTTP/1.1\r\nHost: example.org\r\n\r\n", b"HTTP/1.1 403 Forbidden\r\n"),
    (b"GET /status HTTP/1.1\r\nHost: 127.0.0.1.example.org:80\r\n\r\n", b"HTTP/1.1 403 "),
    (b"GET /status HTTP/1.1\r\nHost: localhost.example.org\r\n\r\n", b"HTTP/1.1 403 "),
    (b"GET /status HTTP/1.1\r\nHost:\r\n\r\n", b"HTTP/1.1 403 "),
    (b"GET /status HTTP/1.0\r\nHost: example.org\r\n\r\n", b"HTTP/1.1 403 "),
    # 40 octets beside the target and the field: 8,192 is the most.
    (long_request(0, 8153), b"HTTP/1.1 431 "),
    (long_request(8192, 0), b"HTTP/1.1 414 "),
    (long_request(0, 0, 31), b"HTTP/1.1 431 "),
)

# The same where the connection stays: to a host of this machine, to targets that are no pages, and of the greatest length.
ANSWERED = (
    (b"GET /status HTTP/1.1\r\nHost: LocalHost\r\n\r\n", b"HTTP/1.1 200 OK\r\n"),
    (b"GET /status HTTP/1.1\r\nhost:127.0.0.1:8080\r\n\r\n", b"HTTP/1.1 200 OK\r\n"),
    (b"GET /status HTTP/1.1\r\nHost: 192.0.2.1\r\n\r\n", b"HTTP/1.1 200 OK\r\n"),
    (b"GET /status HTTP/1.1\r\nHost: [2001:db8::1]:8080\r\n\r\n", b"HTTP/1.1 200 OK\r\n"),
    (b"GET /status HTTP/1.1\r\nHost: localhost\r\nContent-Length: 0\r\n\r\n", b"HTTP/1.1 200 OK\r\n"),
    (b"\r\nGET /status HTTP/1.1\nHost: localhost\n\n", b"HTTP/1.1 200 OK\r\n"),
    # /status, where targets were decoded
    (b"GET /%73tatus HTTP/1.1\r\nHost: localhost\r\n\r\n", b"HTTP/1.1 404 Not Found\r\n"),
    (b"GET /x HTTP/1.1\r\nHost: localhost\r\n\r\n", b"HTTP/1.1 404 "),
    (long_request(1, 8151), b"HTTP/1.1 404 "),
    (long_request(1, 0, 30), b"HTTP/1.1 404 "),
)


def count(got):
    """How many answers these are."""
    return len(re.findall(rb"HTTP/1\.1 \d{3} ", got))


def answers(connection):
    """All that is answered until the connection ends."""
    got = b""
    with contextlib.suppress(ConnectionResetError):
        while piece := connection.recv(65536):
            got += piece
    return got


def refused_differs(port, said, begins):
    """What is wrong with the answer to what is refused: the connection ends by itself, and sooner than that of one who says nothing."""
    with visitor(port) as connection:
        connection.settimeout(SOON)
        connection.sendall(said)
        got = answers(connection)
    return None if got.startswith(begins) and count(got) == 1 else f"answered {got[:200]!r}"


def answer_differs(port, said, begins):
    """What is wrong with the answer to a request, and with that to the next one."""
    with visitor(port) as connection:
        connection.sendall(said)
        first = connection.recv(65536)
        connection.sendall(END)
        got = first + answers(connection)
    if not got.startswith(begins):
        return f"answered {got[:200]!r}"
    return None if count(got) == 2 and is_status(got[len(first) :]) else f"the next is answered {got[len(first):][:200]!r}"


def play_requests(program):
    """Sends each to one server, which nobody joins: what was tried, and what is wrong or None."""
    words = [program] if isinstance(program, (str, pathlib.Path)) else list(program)
    *ports, port = free_ports(2)
    with serving(words, [("alpha", 64496, ports[0], "127.0.0.1")], 1, "--window", f"127.0.0.1:{port}") as server:
        if server.stdout.readline() != f"window 127.0.0.1:{port}\n".encode():
            yield "requests to the window", "no line says that there is a window"
            return
        for table, differs in ((REFUSED, refused_differs), (ANSWERED, answer_differs)):
            for said, begins in table:
                try:
                    wrong = differs(port, said, begins)
                except OSError as fault:
                    wrong = f"{fault!r}"
                yield f"request of {len(said)} octets {said[:90]!r}: {begins.decode().splitlines()[0]}", wrong


def by_words(words):
    """The results, by the words of a command behind the play's name; None where these are others."""
    if len(words) == 1:
        return play_requests(pathlib.Path(words[0]).resolve())
    return None
