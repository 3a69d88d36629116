#!/usr/bin/python3
"""Tests of from_capture.py: tools/test_from_capture.py. No network, no root; dpkt as from_capture.py needs it.

The tests stand in captures/, by their subject. Captures and dumps are made there, octet by octet, from the messages of
examples/sessions/first_route.
"""
import unittest

from captures.test_dumps import Dumps
from captures.test_faults import Faults
from captures.test_links import Links, Server
from captures.test_sessions import Sessions
from captures.test_streams import Streams

__all__ = ["Dumps", "Faults", "Links", "Server", "Sessions", "Streams"]

if __name__ == "__main__":
    unittest.main()
