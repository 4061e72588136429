"""The same in Python, over pipes and in this process. usage: moves.py MAP"""
import sys

import nashirudder
import nashirudder.library

for kind in (nashirudder.Fleet, nashirudder.library.Fleet):
    with kind(sys.argv[1], robots=[0]) as fleet:
        errand = fleet.go(robot=0, cell=2)
        print("accepted", errand.accepted())
        while errand.arrived() is None and fleet.look().tick < 9:
            fleet.tick()
        print(f"tick {errand.arrived().tick}: {fleet.cells[0]}")
