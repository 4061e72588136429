"""Plans as long as they may be, and longer by one byte, as sparse files."""
import os

from saying import is_trace_of

# The greatest length of a plan, a trace or a scenario, in bytes
MOST = 2**30
ROWS = ["..."]
PLACES = [[(0, 0)], [(1, 0)]]
END = b"\nstarts=(0,0),\nsolution=\n0:(0,0),\n1:(1,0),\n"


def write_plan(path, length):
    """Writes a valid plan of this length. Its head has a note of zero bytes, which take no room on the disk."""
    with open(path, "wb") as it:
        it.write(b"note=")
        it.seek(length - len(END))
        it.write(END)


def lengths_fault(run, fleet, room):
    """Returns what is not as it should be of plans, traces and scenarios at the limit of length, or None."""
    floor, short, long = f"{room}/row.map", f"{room}/short.plan", f"{room}/long.plan"
    with open(floor, "w", encoding="ascii") as it:
        it.write(f"type octile\nheight 1\nwidth {len(ROWS[0])}\nmap\n{ROWS[0]}\n")
    write_plan(short, 100)
    write_plan(long, MOST)
    valid = ("valid 1 1\nsum-of-costs 1\nmakespan 1\n", 0, "")
    for path in (short, long):
        said = run(fleet, "check", floor, path)
        if said != valid:
            return f"check of {os.path.getsize(path)} bytes: {said!r}"
        said = run(fleet, "explain", floor, path)
        if said != ("all in order\n", 0, ""):
            return f"explain of {os.path.getsize(path)} bytes: {said!r}"
        trace, status, complaint = run(fleet, "convert", "--to", "trace", floor, path)
        if status or complaint or not is_trace_of(ROWS, PLACES, trace):
            return f"the trace of {os.path.getsize(path)} bytes: {(trace, status, complaint)!r}"
    write_plan(long, MOST + 1)
    refused = ("", 3, f"fleet: file {long} too-large\n")
    words = [["check", floor, long], ["check", "--goals", long, floor, short], ["explain", floor, long], ["convert", "--to", "trace", floor, long],
             ["convert", "--to", "moves", floor, long], ["view", floor, long], ["stats", floor, short, long]]
    for given in words:
        said = run(fleet, *given)
        if said != refused:
            return f"{given} of {MOST + 1} bytes: {said!r}"
    os.remove(long)
    return None
