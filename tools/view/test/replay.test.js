'use strict';

// Tests of the replay without a browser: node --test tools/view/test
// Expected values are worked out by hand from the traces.

const assert = require('node:assert');
const fs = require('node:fs');
const path = require('node:path');
const test = require('node:test');
const vm = require('node:vm');

const PARTS = [
  'read', 'graph', 'roomy', 'fault', 'changes', 'replay', 'turns', 'bound', 'colours', 'heat', 'charts', 'events', 'list', 'marks',
];
const NAMES = [
  'Replay', 'Distances', 'mapOf', 'verdictsOf', 'traceOf', 'tracesOf', 'hasBridge', 'greatestDistance', 'findBound',
  'faultText', 'noteOf', 'robotText', 'recentArrivals', 'robotColour', 'contrastOf', 'luminanceOfHex',
  'Heat', 'Roominess', 'eventsOf', 'firstFrom', 'marksOf',
];

function load() {
  const texts = PARTS.map((part) => fs.readFileSync(path.join(__dirname, '..', 'script', `${part}.js`), 'utf8'));
  return vm.runInThisContext(`(() => { ${texts.join('\n')}\nreturn { ${NAMES.join(', ')} }; })()`);
}

const page = load();
const OPEN = page.mapOf(['...', '...', '...']);
const RING = page.mapOf(['...', '.@.', '...']);

function robot(cell, errands = [], wait = null, shut = false) {
  return [cell, shut, wait, errands, [0, 3], [0, 3]];
}

function trace(robots, entries, tick = 0, chapter = 0) {
  const opening = { clients: [[0, 0, 0, false]], life: 100, queue: 4, robots, tick };
  return page.traceOf(JSON.stringify({ chapter, entries, opening, version: 2 }));
}

function replayOf(map, traces, verdicts = traces.map(() => 'legal')) {
  return new page.Replay(map, traces, page.verdictsOf(verdicts));
}

function finish(search) {
  let step = search.next();
  while (!step.done) step = search.next();
  return step.value;
}

const boundOf = (map, replay) => finish(page.findBound(map, replay));
const go = (client, to, cell, number) => ['take', client, ['go', to, cell], ['accepted', number]];
const tick = (cells, arrived = [], farewells = []) => ['tick', cells, arrived, farewells];

test('a map has the floor of its letters', () => {
  const map = page.mapOf(['.GS', '@TW']);
  assert.deepStrictEqual([map.height, map.width, [...map.floor]], [2, 3, [1, 1, 1, 0, 0, 0]]);
});

test('verdicts are read line by line', () => {
  const verdicts = page.verdictsOf(['legal', 'illegal 12 4', 'illegal 0 1']);
  assert.deepStrictEqual(verdicts, [null, { at: 12, rule: 4 }, { at: 0, rule: 1 }]);
});

test('a clock beyond 2^53 is exact', () => {
  const opening = '{"clients":[],"life":1,"queue":1,"robots":[],"tick":18446744073709551615}';
  const traces = page.tracesOf(`{"chapter":0,"entries":[],"opening":${opening},"version":2}\n`);
  assert.strictEqual(traces[0].clock, 18446744073709551615n);
});

test('robots move, arrive and wait, forward and back', () => {
  const entries = [go(0, 0, 2, 1), go(0, 0, 0, 2), tick([1, 8]), tick([2, 8], [[0, 0, 1, 0]]), tick([1, 7])];
  const replay = replayOf(OPEN, [trace([robot(0), robot(8)], entries)]);
  assert.strictEqual(replay.last, 3);
  assert.deepStrictEqual([...replay.arrivals], [0, 0, 1, 1]);
  assert.deepStrictEqual([...replay.unfinished], [2, 2, 1, 1]);
  assert.deepStrictEqual([...replay.idle], [1, 1, 1, 1]);
  assert.deepStrictEqual([...replay.wait], [0, 1, 0, 1]);
  replay.seek(3);
  assert.deepStrictEqual([...replay.state.cells], [1, 7]);
  assert.deepStrictEqual(replay.state.queues[0].map((errand) => errand.cell), [0]);
  assert.strictEqual(replay.waitOf(0), 1);
  assert.strictEqual(replay.waitOf(1), null);
  replay.seek(0);
  assert.deepStrictEqual([...replay.state.cells], [0, 8]);
  assert.deepStrictEqual(replay.state.queues[0].map((errand) => errand.cell), [2, 0]);
  replay.seek(2);
  assert.deepStrictEqual(replay.arrivedAt(2), [0]);
});

test('the path of a robot reaches to both sides', () => {
  const replay = replayOf(OPEN, [trace([robot(0), robot(8)], [tick([1, 8]), tick([2, 7]), tick([5, 7])])]);
  replay.seek(2);
  assert.deepStrictEqual(replay.pathOf(0, 0, 3), { cells: [0, 1, 2, 5], here: 2 });
  assert.deepStrictEqual(replay.pathOf(1, 1, 9), { cells: [8, 7, 7], here: 1 });
});

test('withdrawn errands leave the middle of a queue and come back to it', () => {
  const withdrawal = ['take', 0, ['withdraw', 2], ['withdrawn']];
  const entries = [go(0, 0, 2, 1), go(0, 0, 5, 2), go(0, 0, 8, 3), tick([1]), withdrawal];
  const replay = replayOf(OPEN, [trace([robot(0)], entries)]);
  replay.seek(1);
  assert.deepStrictEqual(replay.state.queues[0].map((errand) => errand.number), [1, 3]);
  replay.seek(0);
  assert.deepStrictEqual(replay.state.queues[0].map((errand) => errand.number), [1, 2, 3]);
});

test('a chapter that opens with another queue shows that queue', () => {
  const first = trace([robot(0), robot(8)], [go(0, 0, 2, 1), tick([1, 8])]);
  const next = trace([robot(1, [[0, 2, 5]], 0), robot(8)], [tick([2, 8])], 1, 1);
  const replay = replayOf(OPEN, [first, next]);
  replay.seek(1);
  assert.deepStrictEqual(replay.state.queues[0].map((errand) => errand.cell), [5]);
  assert.strictEqual(replay.waitOf(0), 0);
  replay.seek(0);
  assert.deepStrictEqual(replay.state.queues[0].map((errand) => errand.cell), [2]);
});

test('the clock names the frame', () => {
  const replay = replayOf(OPEN, [trace([robot(0)], [tick([1]), tick([2])], 5000)]);
  assert.deepStrictEqual([0n, 5000n, 5001n, 5002n, 9000n].map((clock) => replay.frameOf(clock)), [0, 0, 1, 2, 2]);
  assert.strictEqual(replay.clockAt(1), 5001n);
});

test('the fault of an illegal step names robots and cells', () => {
  const fault = (map, robots, to) => replayOf(map, [trace(robots, [tick(to)])], ['illegal 1 4']).faults[0];
  const [both, exchange, wall, far] = [
    fault(OPEN, [robot(0), robot(2)], [1, 1]), fault(OPEN, [robot(0), robot(1)], [1, 0]),
    fault(RING, [robot(3), robot(8)], [4, 8]), fault(OPEN, [robot(2), robot(8)], [3, 8]),
  ];
  assert.deepStrictEqual([both.robots, both.cells, both.frame], [[0, 1], [1], 1]);
  assert.deepStrictEqual([exchange.robots, exchange.cells], [[0, 1], [0, 1]]);
  assert.deepStrictEqual([wall.robots, wall.cells], [[0], [4]]);
  // cell 3 is the first of the next row: it is no neighbour of cell 2
  assert.deepStrictEqual([far.robots, far.cells], [[0], [2, 3]]);
  const rule = 'it breaks rule 4, the step is not free of conflicts';
  assert.strictEqual(page.faultText(both), `illegal at entry 1: ${rule}: robots 0 and 1 are on cell 1`);
});

test('each conflict of an illegal chapter is an event at its tick', () => {
  const steps = [tick([1, 1, 1]), tick([0, 2, 7]), tick([3, 2, 4]), tick([4, 2, 3])];
  const replay = replayOf(OPEN, [trace([robot(0), robot(2), robot(4)], steps)], ['illegal 1 4']);
  const listed = (kind, of = null) => page.eventsOf(replay, { kind, client: null, robot: of })
    .map(({ frame, event }) => `${frame}: ${page.noteOf(OPEN, event.entry)}`);
  const all = [
    '1: robots 0 and 1 are on cell 1', '1: robots 0 and 2 are on cell 1',
    '2: robot 2 goes from cell 1 to cell 7, which is no neighbour',
    '4: robots 0 and 2 exchange the cells 3 and 4',
  ];
  assert.deepStrictEqual(listed('conflicts'), all);
  assert.deepStrictEqual(listed('conflicts', 1), all.slice(0, 1));
  assert.strictEqual(replay.conflicts, 4);
  assert.deepStrictEqual(replay.faultsAt(3), []);
  assert.deepStrictEqual(replay.faultsAt(4)[0].cells, [3, 4]);
  const legal = replayOf(OPEN, [trace([robot(0), robot(2)], [tick([1, 2])])]);
  assert.strictEqual(legal.conflicts, 0);
});

test('the fault of what a tick tells names the robot', () => {
  const fault = (entries, verdict) => replayOf(OPEN, [trace([robot(0), robot(8)], entries)], [verdict]).faults[0];
  assert.deepStrictEqual(fault([go(0, 0, 1, 1), tick([1, 8])], 'illegal 2 5').robots, [0]);
  assert.deepStrictEqual(fault([tick([1, 8], [[1, 0, 1, 0]])], 'illegal 1 5').robots, [1]);
  assert.deepStrictEqual(fault([go(0, 0, 1, 1), tick([1, 8], [[0, 0, 1, 9]])], 'illegal 2 7').robots, [0]);
  assert.deepStrictEqual(fault([tick([1, 8], [], [[1, 0]])], 'illegal 1 6').robots, [1]);
  assert.deepStrictEqual(fault([['shut', 7]], 'illegal 1 8').robots, []);
});

test('an illegal opening is at fault where it begins', () => {
  const { faults } = replayOf(OPEN, [trace([robot(4), robot(4)], [])], ['illegal 0 1']);
  assert.deepStrictEqual([faults[0].at, faults[0].frame, faults[0].robots, faults[0].cells], [0, 0, [0, 1], [4]]);
});

test('distances, bridges and the greatest distance', () => {
  const distances = new page.Distances(RING);
  assert.strictEqual(distances.from(0), 4);
  assert.deepStrictEqual([distances.of(8), distances.of(2), distances.of(4)], [4, 2, -1]);
  assert.strictEqual(finish(page.greatestDistance(RING, distances)), 4);
  assert.deepStrictEqual([page.hasBridge(RING), page.hasBridge(page.mapOf(['..', '..', '.@']))], [false, true]);
});

test('a bound is shown where each tick advances', () => {
  const entries = [go(0, 0, 2, 1), tick([1, 8]), tick([2, 8], [[0, 0, 1, 0]])];
  const replay = replayOf(RING, [trace([robot(0), robot(8)], entries)]);
  assert.strictEqual(boundOf(RING, replay).bound, 8);
});

test('no bound is shown where the eldest stands still, where a chapter is illegal, or where there is a bridge', () => {
  const idle = replayOf(RING, [trace([robot(0), robot(8)], [go(0, 0, 2, 1), tick([1, 8]), tick([1, 8])])]);
  assert.strictEqual(boundOf(RING, idle).bound, null);
  assert.match(boundOf(RING, idle).text, /in tick 2 /);
  const illegal = replayOf(RING, [trace([robot(0), robot(8)], [tick([4, 8])])], ['illegal 1 4']);
  assert.strictEqual(boundOf(RING, illegal).bound, null);
  const line = page.mapOf(['...']);
  assert.strictEqual(boundOf(line, replayOf(line, [trace([robot(0)], [tick([1])])])).bound, null);
});

test('no bound is shown where robots had waited too long at the opening', () => {
  const waited = (wait) => replayOf(RING, [trace([robot(0, [[0, 1, 2]], wait), robot(8)], [tick([1, 8])], 900)]);
  // two robots times four are eight: a wait of six leaves room for the two cells to the goal, one of seven does not
  assert.strictEqual(boundOf(RING, waited(6)).bound, 8);
  assert.strictEqual(boundOf(RING, waited(7)).bound, null);
});

test('above 6,000 cells the bound is robots times the floor cells less one', () => {
  const map = page.mapOf(Array.from({ length: 80 }, () => '.'.repeat(80)));
  const replay = replayOf(map, [trace([robot(0), robot(6399)], [go(0, 0, 2, 1), tick([1, 6399])])]);
  assert.strictEqual(boundOf(map, replay).bound, 2 * 6399);
});

test('arrivals of the last hundred ticks', () => {
  const arrivals = Uint32Array.from({ length: 301 }, (_, frame) => 2 * frame);
  const recent = page.recentArrivals(arrivals);
  assert.deepStrictEqual([recent[0], recent[50], recent[100], recent[300]], [0, 100, 200, 200]);
});

test('robots stand out from the floor, and digits from robots', () => {
  // by the examples of WCAG: white on black has 21, and #767676 on white 4.54
  assert.strictEqual(page.contrastOf(page.luminanceOfHex('#ffffff'), page.luminanceOfHex('#000000')), 21);
  assert.strictEqual(page.contrastOf(page.luminanceOfHex('#767676'), 1).toFixed(2), '4.54');
  for (const floor of ['#ffffff', '#1b222c'].map((colour) => page.luminanceOfHex(colour))) {
    for (let robot = 0; robot < 512; robot += 1) {
      const { luminance, digits } = page.robotColour(robot, floor);
      assert.ok(page.contrastOf(luminance, floor) >= 3, `robot ${robot}`);
      assert.ok(page.contrastOf(luminance, page.luminanceOfHex(digits)) >= 4.5, `robot ${robot}`);
    }
  }
});

test('entries and robots are told in words', () => {
  const replay = replayOf(OPEN, [trace([robot(0)], [go(0, 0, 5, 1)])]);
  const sent = 'client 2 sends robot 0 to cell 5 (row 1, column 2): accepted as errand 1';
  assert.strictEqual(page.noteOf(OPEN, go(2, 0, 5, 1)), sent);
  const closes = page.noteOf(OPEN, ['take', 0, ['close'], ['refused', 1]]);
  assert.strictEqual(closes, 'client 0 closes: refused: client-closed');
  const place = 'Robot 0 is on cell 0 (row 0, column 0).';
  const errand = 'It has waited 0 ticks, and is sent to cell 5 (client 0, errand 1).';
  assert.strictEqual(page.robotText(replay, 0), `${place} ${errand}`);
});

// Robot 0 goes to cell 2 by cell 1, where it stands for two ticks; robot 1 has no errand and stands on cell 8.
const JAM = [
  go(0, 0, 2, 1), tick([1, 8]), tick([1, 8]), tick([1, 8]), tick([2, 8], [[0, 0, 1, 0]]), tick([2, 8]), tick([5, 8]),
];

// The counts of the cells that have any, at each frame, forward and then back.
function heatAt(kind, window) {
  const replay = replayOf(OPEN, [trace([robot(0), robot(8)], JAM)]);
  const heat = new page.Heat(replay);
  heat.choose(kind, window);
  const read = (frame) => {
    replay.seek(frame);
    heat.follow();
    return [...heat.counts].flatMap((count, cell) => (count > 0 ? [`${cell}:${count}`] : [])).join(' ');
  };
  const frames = [0, 1, 2, 3, 4, 5, 6];
  const forward = frames.map(read);
  assert.deepStrictEqual([...frames].reverse().map(read).reverse(), forward);
  return forward;
}

test('heat counts the ticks in which a robot came to a cell', () => {
  assert.deepStrictEqual(heatAt('came', 0), ['', '1:1', '1:1', '1:1', '1:1 2:1', '1:1 2:1', '1:1 2:1 5:1']);
  assert.deepStrictEqual(heatAt('came', 2), ['', '1:1', '1:1', '', '2:1', '2:1', '5:1']);
});

test('heat counts the ticks in which a robot with an errand stood on a cell', () => {
  assert.deepStrictEqual(heatAt('stood', 0), ['', '', '1:1', '1:2', '1:2', '1:2', '1:2']);
  assert.deepStrictEqual(heatAt('stood', 2), ['', '', '1:1', '1:2', '1:1', '', '']);
});

const MIXED = [
  go(0, 0, 2, 1), ['take', 1, ['go', 1, 99], ['refused', 4]], tick([1, 8]), tick([2, 8], [[0, 0, 1, 0]]),
  ['shut', 1, 0], ['take', 0, ['close'], ['closed']],
];

test('events are listed by kind, client and robot', () => {
  const replay = replayOf(OPEN, [trace([robot(0), robot(8)], MIXED)]);
  const frames = (kind, client = null, of = null) => page.eventsOf(replay, { kind, client, robot: of }).map((one) => one.frame);
  assert.deepStrictEqual(frames('all'), [0, 0, 2, 2, 2]);
  assert.deepStrictEqual(frames('orders'), [0, 0, 2]);
  assert.deepStrictEqual(frames('refusals'), [0]);
  assert.deepStrictEqual(frames('arrivals'), [2]);
  assert.deepStrictEqual(frames('shuts'), [2]);
  assert.deepStrictEqual(frames('chapters'), []);
  assert.deepStrictEqual(frames('all', 0), [0, 2, 2]);
  assert.deepStrictEqual(frames('all', 1), [0]);
  assert.deepStrictEqual(frames('all', null, 1), [0, 2]);
  assert.deepStrictEqual(frames('all', 0, 0), [0, 2]);
  const found = page.eventsOf(replay, { kind: 'all', client: null, robot: null });
  assert.deepStrictEqual([0, 1, 2, 3].map((frame) => page.firstFrom(found, frame)), [0, 2, 2, 5]);
});

test('the slider has marks for chapters, shuts, refusals and faults', () => {
  const second = trace([robot(2), robot(8, [], null, true)], [tick([2, 5]), tick([2, 2])], 2, 1);
  const replay = replayOf(OPEN, [trace([robot(0), robot(8)], MIXED), second], ['legal', 'illegal 2 4']);
  const marks = page.marksOf(replay).map(({ kind, part }) => `${kind} ${part}`);
  assert.deepStrictEqual(marks, ['chapter 0.5', 'refusal 0', 'shutting 0.5', 'fault 1']);
});

test('bridges and cells that are not roomy', () => {
  // Two rings of four cells, joined by a corridor of three with a stub of one below its middle.
  const rings = page.mapOf(['..@@@..', '.......', '@@@.@@@']);
  const found = (map, robots) => {
    const { bridges, unroomy } = new page.Roominess(map, robots);
    return [bridges.map((ends) => ends.join('-')).join(' '), [...unroomy.keys()].filter((cell) => unroomy[cell])];
  };
  const bridges = '8-9 9-10 10-11 10-17 11-12';
  assert.deepStrictEqual(found(rings, 1), [bridges, []]);
  assert.deepStrictEqual(found(rings, 4), [bridges, [17]]);
  assert.deepStrictEqual(found(rings, 5), [bridges, [0, 1, 5, 6, 7, 8, 12, 13, 17]]);
  assert.deepStrictEqual(found(RING, 512), ['', []]);
});

// By the definition: a search for each edge and each of its ends.
function roominessOf(map, robots) {
  const size = map.floor.length;
  const near = (cell) => {
    const column = cell % map.width;
    const all = [cell - map.width, cell + map.width, ...(column > 0 ? [cell - 1] : []), ...(column + 1 < map.width ? [cell + 1] : [])];
    return all.filter((other) => other >= 0 && other < size && map.floor[other]);
  };
  const side = (from, a, b) => {
    const seen = new Set([from]);
    for (const cell of seen) for (const other of near(cell)) if (!((cell === a && other === b) || (cell === b && other === a))) seen.add(other);
    return seen;
  };
  const unroomy = new Set();
  const bridges = [];
  for (let a = 0; a < size; a += 1) {
    for (const b of map.floor[a] ? near(a) : []) {
      const own = side(a, a, b);
      if (own.has(b)) continue;
      if (a < b) bridges.push(`${a}-${b}`);
      if (own.size < robots) for (const cell of own) unroomy.add(cell);
    }
  }
  return [bridges.sort(), [...unroomy].sort((a, b) => a - b)];
}

test('bridges and cells that are not roomy, by the definition', () => {
  let seed = 7;
  const random = (below) => {
    seed = (seed * 1103515245 + 12345) % 2147483648;
    return Math.floor(seed / 65536) % below;
  };
  for (let trial = 0; trial < 300; trial += 1) {
    const [height, width] = [1 + random(6), 1 + random(7)];
    const map = page.mapOf(Array.from({ length: height }, () => Array.from({ length: width }, () => (random(3) === 0 ? '@' : '.')).join('')));
    const robots = 1 + random(9);
    const { bridges, unroomy } = new page.Roominess(map, robots);
    const told = [bridges.map((ends) => ends.join('-')).sort(), [...unroomy.keys()].filter((cell) => unroomy[cell])];
    assert.deepStrictEqual(told, roominessOf(map, robots));
  }
});
