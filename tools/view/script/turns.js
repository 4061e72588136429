// ---- whose turn it is in a step, and who pushes whom

// The robots in the order in which a step is planned: by their waits, the longest first, those without an errand last; of
// two alike the one with the lesser number.
function orderOf(waits) {
  const before = (one, other) => (waits[other] ?? -1) - (waits[one] ?? -1) || one - other;
  return Array.from(waits.keys()).sort(before);
}

// For each robot its place in the order, from 1.
function turnsOf(order) {
  const turns = new Int32Array(order.length);
  order.forEach((robot, place) => { turns[robot] = place + 1; });
  return turns;
}

// For each robot the one that pushes it in a step from some cells to others, else -1. A robot pushes the one whose cell it comes
// to, if that one had no cell yet: neither its turn had come, nor had it been pushed.
function pushesOf(cells, next, order) {
  const pushedBy = new Int32Array(cells.length).fill(-1);
  const placed = new Uint8Array(cells.length);
  const at = new Map();
  cells.forEach((cell, robot) => at.set(cell, robot));
  for (const first of order) {
    let robot = first;
    while (robot !== undefined && !placed[robot]) {
      placed[robot] = 1;
      const other = next[robot] === cells[robot] ? undefined : at.get(next[robot]);
      // one that stays was not pushed away: there is a conflict
      if (other === undefined || placed[other] || next[other] === cells[other]) break;
      pushedBy[other] = robot;
      robot = other;
    }
  }
  return pushedBy;
}

// The order at a replay's frame, and who pushes whom in the next tick; null after the last one, and where it breaks a rule.
function stepTurns(replay) {
  const { frame, cells } = replay.state;
  const waits = Array.from(cells, (_, robot) => replay.waitOf(robot));
  const order = orderOf(waits);
  const known = frame < replay.last && replay.faultsAt(frame + 1).length === 0;
  const next = known ? replay.cellsAfter() : null;
  return { frame, turns: turnsOf(order), next, pushedBy: known ? pushesOf(cells, next, order) : null };
}

function turnText({ turns, pushedBy }, robot) {
  const texts = [`Its turn is number ${turns[robot]} of ${turns.length}.`];
  if (pushedBy === null) return texts[0];
  if (pushedBy[robot] >= 0) texts.push(`Robot ${pushedBy[robot]} pushes it in the next tick.`);
  const pushed = pushedBy.indexOf(robot);
  if (pushed >= 0) texts.push(`It pushes robot ${pushed}.`);
  return texts.join(' ');
}
