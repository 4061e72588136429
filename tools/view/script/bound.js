// ---- the bound on waits

// On a map without bridges no wait of a legal history reaches the number of robots times the greatest distance, if
// each tick advances (the eldest robot comes nearer to its goal, or is on it and stays) and the waits at the opening
// leave room for that. All of this is looked at before a bound is shown. The search works in slices, so that the page
// does not stand still: each of these is a generator, which returns its result and yields in between.

const MOST_CELLS = 6000;
const MOST_VISITS = 4e8;

// The greatest distance of two cells that a walk joins, at least 1.
function* greatestDistance(map, distances) {
  let greatest = 1;
  for (let cell = 0; cell < map.floor.length; cell += 1) {
    if (!map.floor[cell]) continue;
    greatest = Math.max(greatest, distances.from(cell));
    yield;
  }
  return greatest;
}

// The frame of a tick that does not advance; 0 if each advances, -1 if that takes too long to find out.
function* firstIdleTick(replay, distances, floorCount) {
  const byGoal = new Map();
  for (let frame = 1; frame <= replay.last; frame += 1) {
    const goal = replay.eldestGoal[frame];
    if (goal < 0) continue;
    if (!byGoal.has(goal)) byGoal.set(goal, []);
    byGoal.get(goal).push(frame);
  }
  if (byGoal.size * floorCount > MOST_VISITS) return -1;
  let first = 0;
  for (const [goal, frames] of byGoal) {
    distances.from(goal);
    for (const frame of frames) {
      const [from, to] = [replay.eldestFrom[frame], replay.eldestTo[frame]];
      const far = distances.of(from);
      const advances = far === 0 ? to === goal : far > 0 && distances.of(to) === far - 1;
      if (!advances && (first === 0 || frame < first)) first = frame;
    }
    yield;
  }
  return first;
}

// How many robots have waited longer than robot r, or as long with a lesser number.
function countBefore(waits, r) {
  return waits.filter((wait, other) => wait !== null && (wait > waits[r] || (wait === waits[r] && other < r))).length;
}

// Whether the waits at an opening leave room for the bound.
function leavesRoom(opening, far, distances) {
  const { waits, goals, cells } = opening;
  if (waits.every((wait) => wait === null || wait === 0)) return true;
  if (far === null) return false;
  let eldest = -1;
  waits.forEach((wait, robot) => {
    if (wait !== null && (eldest < 0 || wait > waits[eldest])) eldest = robot;
  });
  distances.from(goals[eldest]);
  const way = Math.max(1, distances.of(cells[eldest]));
  const most = waits.length * far;
  return waits.every((wait, robot) => wait === null || wait + way + countBefore(waits, robot) * far <= most);
}

// The bound, or null, and why in words.
function* findBound(map, replay) {
  const none = (why) => ({ bound: null, text: `No bound on waits is shown: ${why}.` });
  if (replay.faults.length > 0) return none(`chapter ${replay.faults[0].chapter} is illegal`);
  if (hasBridge(map)) return none('the map has a bridge, where robots may have to wait for ever');
  yield;
  const distances = new Distances(map);
  const floorCount = countFloor(map);
  const idle = yield* firstIdleTick(replay, distances, floorCount);
  if (idle < 0) return none('it would take too long to find out whether each tick advances');
  if (idle > 0) {
    return none(`in tick ${replay.clockAt(idle)} the robot that had waited longest came no nearer to its goal`);
  }
  const small = floorCount <= MOST_CELLS;
  const far = small ? yield* greatestDistance(map, distances) : null;
  if (!replay.openings.every((opening) => leavesRoom(opening, far, distances))) {
    return none('robots had waited too long when it began');
  }
  const factor = small ? far : Math.max(1, floorCount - 1);
  const bound = replay.robots * factor;
  const kind = small ? `the greatest distance, ${far}` : `the floor cells less one, ${factor}`;
  const sum = `that is ${replay.robots} robots times ${kind}`;
  return { bound, text: `Every wait is below ${bound}: ${sum}. The map has no bridge, and each tick advances.` };
}
