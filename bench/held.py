#!/usr/bin/env python3
"""Measures what `rs_adjin` takes to put and to clear a route beside plain Rust with the same idea: held.py [--runs N]

Ten clients announce the same 100,000 prefixes, and then all of each goes: the figures are the nanoseconds a route of
`put` where no client has the prefix yet, of `put` where others have it, of a `put` that changes nothing, and of
`clear`, the least of N runs (8 unless said otherwise); how it is measured stands in beside.py. It writes nothing in
the repository.
"""
import beside

beside.measure("held", ("rs_adjin", "rs_attrs", "rs_octets"), __doc__)
