"""What the gate plays to the built programs. `play.py NAME` plays one of them by itself."""
