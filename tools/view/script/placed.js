// ---- plans: their placements and conflicts

// the sign of 0 where a cell is told by six signs, and what stands before them
const FIRST_SIGN = 63;
const JUMP = 33;
const CELL_SIGNS = 6;
const LINE_END = 10;

// By how much the cell of a robot changes at each letter of a step.
function stepDeltas(width) {
  const deltas = new Int32Array(128);
  deltas[110] = -width;
  deltas[115] = width;
  deltas[119] = -1;
  deltas[101] = 1;
  return deltas;
}

function cellSignsAt(text, at) {
  let cell = 0;
  for (let place = 0; place < CELL_SIGNS; place += 1) cell = cell * 64 + text.charCodeAt(at + place) - FIRST_SIGN;
  return cell;
}

// How many robots the line at this place of the text has.
function countSteps(text, at) {
  let count = 0;
  for (let place = at; place < text.length && text.charCodeAt(place) !== LINE_END; place += 1) {
    if (text.charCodeAt(place) === JUMP) place += CELL_SIGNS;
    count += 1;
  }
  return count;
}

// The cells of all placements, one after the other, from a text with a line for each; and where these lines end. A robot is
// nowhere, at -1, where a placement has fewer cells than the first one.
function placementsOf(width, text, from, count) {
  const robots = countSteps(text, from);
  const cells = new Int32Array(robots * count).fill(-1);
  const before = new Int32Array(robots);
  const deltas = stepDeltas(width);
  let at = from;
  for (let time = 0; time < count; time += 1) {
    const start = time * robots;
    let robot = 0;
    for (let code = text.charCodeAt(at); code !== LINE_END && at < text.length; code = text.charCodeAt(at)) {
      if (robot < robots) before[robot] = code === JUMP ? cellSignsAt(text, at + 1) : before[robot] + deltas[code];
      at += code === JUMP ? 1 + CELL_SIGNS : 1;
      robot += 1;
    }
    at += 1;
    cells.set(before.subarray(0, robot), start);
    // what comes after a robot that was nowhere is told from cell 0
    before.fill(0, robot);
  }
  return { robots, cells, end: at };
}

// For each robot, the time from which on it stays on its last cell.
function timesDone(robots, cells) {
  const count = robots === 0 ? 0 : cells.length / robots;
  const done = new Int32Array(robots);
  let left = Array.from({ length: robots }, (_, robot) => robot);
  for (let time = count - 2; time >= 0 && left.length > 0; time -= 1) {
    left = left.filter((robot) => {
      if (cells[time * robots + robot] === cells[(count - 1) * robots + robot]) return true;
      done[robot] = time + 1;
      return false;
    });
  }
  return done;
}

// How many robots came to another cell, up to each time.
function movesUpTo(robots, cells) {
  const count = robots === 0 ? 1 : cells.length / robots;
  const moves = new Float64Array(count);
  for (let time = 1; time < count; time += 1) {
    let moved = 0;
    for (let at = time * robots; at < (time + 1) * robots; at += 1) if (cells[at] !== cells[at - robots]) moved += 1;
    moves[time] = moves[time - 1] + moved;
  }
  return moves;
}

// How many of these times have come, at each time up to the last.
function countUpTo(times, last) {
  const counts = new Uint32Array(last + 1);
  for (const time of times) counts[time] += 1;
  for (let time = 1; time <= last; time += 1) counts[time] += counts[time - 1];
  return counts;
}

const CONFLICT_TEXTS = {
  length: () => 'another number of cells than robots',
  'off-floor': (one) => `robot ${one} is on no floor`,
  'not-adjacent': (one) => `robot ${one} goes to a cell that is no neighbour`,
  vertex: (one, other) => `robots ${one} and ${other} are on one cell`,
  swap: (one, other) => `robots ${one} and ${other} exchange their cells`,
};

// A line `invalid TIME KIND ROBOT..`, as `fleet check --all` prints it.
function conflictOf(line) {
  const [, time, kind, ...robots] = line.split(' ');
  const numbers = robots.map(Number);
  return { frame: Number(time), robots: numbers, text: (CONFLICT_TEXTS[kind] ?? (() => kind))(...numbers) };
}
