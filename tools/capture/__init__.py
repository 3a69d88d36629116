"""From packet captures and MRT dumps to recorded sessions: the parts of tools/from_capture.py."""
