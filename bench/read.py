#!/usr/bin/env python3
"""Measures `rs_attrs::read` beside plain Rust with the same idea: read.py [--runs N]

Each figure is the nanoseconds of a call, with the drop of what it gives, the least of N runs (8 unless said
otherwise); how it is measured stands in beside.py. It writes nothing in the repository.
"""
import beside

beside.measure("read", ("rs_attrs",), __doc__)
