"""Tests of tools/from_capture.py, by their subject, and what captures and dumps are made of for them: `packets`, `dumps`."""
