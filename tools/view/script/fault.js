// ---- what is wrong with the entry that breaks a rule

// The rule and the entry are the judge's, which the page carries. Which robots and cells are at fault is found here.

const RULES = [
  '',
  'the opening is not in order',
  'there is no such client',
  'the verdict is not the one that is due',
  'the step is not free of conflicts',
  'the arrivals are not those that are due',
  'the farewells are not those that are due',
  'a stamp is outside of its law',
  'there is no such robot, or it is shut already',
];

const NO_DETAIL = { detail: '', robots: [], cells: [] };

// Of each robot: that its cell is no floor, or that another one, the first of them, is on it.
function* faultsOfPlaces(map, cells) {
  const first = new Map();
  for (let robot = 0; robot < cells.length; robot += 1) {
    const cell = cells[robot];
    if (!map.floor[cell]) {
      yield { detail: `robot ${robot} is on cell ${cell}, which is no floor`, robots: [robot], cells: [cell] };
    } else if (first.has(cell)) {
      const other = first.get(cell);
      yield { detail: `robots ${other} and ${robot} are on cell ${cell}`, robots: [other, robot], cells: [cell] };
    } else {
      first.set(cell, robot);
    }
  }
}

function isNear(map, one, other) {
  let near = one === other;
  eachNeighbour(map, one, (beside) => { near = near || beside === other; });
  return near;
}

// Of each robot: that it goes too far, or that it exchanges its cell with that of a later one.
function* faultsOfMoves(map, from, to) {
  const at = new Map();
  from.forEach((cell, robot) => at.set(cell, robot));
  for (let robot = 0; robot < to.length; robot += 1) {
    const [old, cell] = [from[robot], to[robot]];
    const cells = [old, cell];
    const other = at.get(cell);
    if (!isNear(map, old, cell)) {
      const detail = `robot ${robot} goes from cell ${old} to cell ${cell}, which is no neighbour`;
      yield { detail, robots: [robot], cells };
    } else if (other !== undefined && other > robot && old !== cell && to[other] === old) {
      const detail = `robots ${robot} and ${other} exchange the cells ${old} and ${cell}`;
      yield { detail, robots: [robot, other], cells };
    }
  }
}

function* faultsOfStep(map, from, to) {
  if (to.length !== from.length) {
    yield { ...NO_DETAIL, detail: `it has ${to.length} cells for ${from.length} robots` };
    return;
  }
  yield* faultsOfPlaces(map, to);
  yield* faultsOfMoves(map, from, to);
}

function firstOf(faults) {
  return faults.next().value ?? NO_DETAIL;
}

function detailOfOpening(map, opening) {
  return firstOf(faultsOfPlaces(map, opening.robots.map((robot) => robot[0])));
}

// The first robot of which one list tells and the other does not.
function firstOdd(due, shown, to, missing, extra) {
  const one = (robot, what) => ({
    detail: `robot ${robot} ${what}`,
    robots: [robot],
    cells: robot < to.length ? [to[robot]] : [],
  });
  const missed = due.find((robot) => !shown.includes(robot));
  if (missed !== undefined) return one(missed, missing);
  const wrong = shown.find((robot) => !due.includes(robot));
  if (wrong !== undefined) return one(wrong, extra);
  return { detail: '', robots: due, cells: due.map((robot) => to[robot]) };
}

function detailOfTick(replay, trace, entry, rule) {
  const { cells, queues, shut } = replay.state;
  const [, to, arrived, farewells] = entry;
  if (rule === 4) return firstOf(faultsOfStep(replay.map, cells, to));
  const due = [...to.keys()].filter((robot) => queues[robot].length > 0 && queues[robot][0].cell === to[robot]);
  if (rule === 5) {
    const shown = arrived.map((arrival) => arrival[0]);
    return firstOdd(due, shown, to, 'arrives there, which is not told', 'has no errand to that cell first');
  }
  if (rule === 6) {
    const leaving = due.filter((robot) => shut[robot] && queues[robot].length === 1);
    const shown = farewells.map((farewell) => farewell[0]);
    return firstOdd(leaving, shown, to, 'is shut and done, and has no farewell', 'has a farewell that is not due');
  }
  const laws = trace.opening.robots;
  const outside = (law, stamp) => stamp < law[0] || stamp > law[1];
  const odd = [
    ...arrived.filter((arrival) => outside(laws[arrival[0]][4], arrival[3])).map((arrival) => arrival[0]),
    ...farewells.filter((farewell) => outside(laws[farewell[0]][5], farewell[1])).map((farewell) => farewell[0]),
  ];
  const detail = odd.length > 0 ? `it is that of robot ${odd[0]}` : '';
  return { detail, robots: odd, cells: odd.map((robot) => to[robot]) };
}

// The entry follows what the replay's state is.
function detailOf(replay, trace, entry, verdict) {
  if (entry[0] === 'tick') return detailOfTick(replay, trace, entry, verdict.rule);
  const robot = entry[0] === 'shut' ? entry[1] : entry[2][0] === 'go' ? entry[2][1] : -1;
  const known = robot >= 0 && robot < replay.robots;
  const robots = known ? [robot] : [];
  return { detail: '', robots, cells: robots.map((one) => replay.state.cells[one]) };
}

function faultText(fault) {
  const where = fault.at === 0 ? 'in its opening' : `at entry ${fault.at}`;
  const detail = fault.detail === '' ? '' : `: ${fault.detail}`;
  return `illegal ${where}: it breaks rule ${fault.rule}, ${RULES[fault.rule] ?? 'unknown'}${detail}`;
}

// The most that are listed.
const MOST_CONFLICTS = 20000;

function conflictsText(count) {
  const listed = count > MOST_CONFLICTS ? `the first ${MOST_CONFLICTS}` : 'each';
  return `${count} conflict${count === 1 ? '' : 's'} in all: ${listed} among the events, with the tick.`;
}

const MOST_BANNERS = 5;

// The lines of the banner, with a jump to each fault.
function bannerLines(replay, jump) {
  const { faults, conflicts } = replay;
  const lines = faults.slice(0, MOST_BANNERS).map((fault) => {
    const line = document.createElement('p');
    const button = document.createElement('button');
    button.type = 'button';
    button.className = 'jump';
    button.textContent = `Show tick ${replay.clockAt(fault.frame)}`;
    button.addEventListener('click', () => jump(fault.frame));
    const of = replay.chapters.length > 1 ? `Chapter ${fault.chapter} is ` : 'This trace is ';
    line.append(`${of}${faultText(fault)}. `, button);
    return line;
  });
  if (faults.length > MOST_BANNERS) lines.push(`${faults.length - MOST_BANNERS} more chapters are illegal.`);
  if (conflicts > 0) lines.push(conflictsText(conflicts));
  return lines;
}
