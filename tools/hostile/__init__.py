"""What a member, a stranger or an accident can do to a running route server: attacks, and whether each is borne.

`targets` starts the servers, `members` are those who speak to them, `beside` is what goes on in processes of its own; the
attacks are in `holding` (hold timers), `costs` (what a member can make others wait for) and `process` (streams, memory,
files, signals). `table` lists the rows, `plays` plays them, each within the bound that `playing` gives it, and `page` writes
what was seen, which `kept` keeps.
"""
