"""Executes a plan with robots of different speed, and prints how long they take next to lock-step, in which a step of the plan
lasts as long as its longest move.
"""
import heapq

from nashirudder.library import Execution

ROBOTS, STEPS, CELLS, AHEAD = 3, 8, 12, 4


def takes(move):
    """How long a robot's move takes: this is where real robots would move."""
    return 3 if (move.robot + move.tick) % 4 == 0 else 1


def cells_after(step):
    """The plan: in a corridor all robots move on by one cell in each step."""
    return [robot + step for robot in range(ROBOTS)]


def execute(clearance):
    now, moves, under_way, longest = 0, 0, [], [0] * (STEPS + 1)
    with Execution(CELLS, cells_after(0), clearance, AHEAD) as run:
        while True:
            while run.has_room and run.progress().steps < STEPS:
                run.plan(cells_after(run.progress().steps + 1))
            for move in iter(run.begin, None):
                longest[move.tick] = max(longest[move.tick], takes(move))
                heapq.heappush(under_way, (now + takes(move), move.robot))
                moves += 1
            if not under_way:
                break
            now, robot = heapq.heappop(under_way)
            run.reached(robot)
    print(f"{clearance}: {moves} moves in {now}, in lock-step {sum(longest)}")


execute("arrived")
execute("started")
