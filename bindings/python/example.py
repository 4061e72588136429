"""Plays the stored run of the program errands: the same events, and the same lines."""
from nashirudder.library import Handle

with Handle("type octile\nheight 1\nwidth 3\nmap\n...\n", robots=[0]) as fleet:
    print("posted 0 1")
    judged = fleet.go(0, 2)
    print(f"took 0 1 {judged.verdict} {judged.number}")
    for _ in range(2):
        report = fleet.tick()
        print(f"tick {report.tick}:", *fleet.placement())
    notices = [fleet.give(), fleet.give()]
    for notice in notices:
        if notice.verdict is None:
            print(f"arrived robot {notice.robot} client 0 number {notice.number} cell {notice.cell} stamp {notice.stamp}")
    for notice in notices:
        print(f"gave 0 {notice.seq}")
    for notice in notices:
        if notice.verdict is not None:
            print(f"collected 0 {notice.seq} verdict {notice.order} {notice.verdict} {notice.number}")
        else:
            print(f"collected 0 {notice.seq} arrived {notice.number} robot {notice.robot} cell {notice.cell} tick {notice.tick} stamp {notice.stamp}")
