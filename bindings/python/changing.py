"""A fleet whose world changes: a wall is built, a robot comes, one is moved by hand, and an errand is dropped."""
from nashirudder.library import Handle, Refused, OpeningRobot

YARD = "type octile\nheight 3\nwidth 4\nmap\n....\n.@..\n....\n"
WALL = "type octile\nheight 3\nwidth 4\nmap\n....\n.@@.\n....\n"

fleet = Handle(YARD, robots=[0, 3])
fleet.go(0, 11)
fleet.go(1, 8)
fleet.tick()
# The state is the opening of a chapter: so the next one begins. (`hand_out` in place of `next_chapter` keeps the last one.)
fleet.next_chapter()
state = fleet.opening()
print(f"tick {state.tick}: robots on", *(robot.cell for robot in state.robots))

state.cancel(1)                                     # also the errand that a robot heads for
state.move(1, 8)
state.robots.append(OpeningRobot(cell=6))             # which is floor in the yard, and a wall on the new map
try:
    fleet.go_on(WALL, state)
except Refused as refused:
    print(refused)                                    # the fleet is as it was
state.robots[2].cell = 9
fleet.go_on(WALL, state)                              # numbers of orders, errands and ticks go on
while not fleet.is_idle():
    fleet.tick()
print(f"tick {fleet.clock()}: robots on", *map(int, fleet.placement()))
