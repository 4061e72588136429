'use strict';

// Tests of plans and runs without a browser: node --test tools/view/test
// Expected values are worked out by hand.

const assert = require('node:assert');
const fs = require('node:fs');
const path = require('node:path');
const test = require('node:test');
const vm = require('node:vm');

const PARTS = ['read', 'graph', 'fault', 'changes', 'replay', 'events', 'placed', 'logs', 'runs'];
const NAMES = ['mapOf', 'placementsOf', 'timesDone', 'movesUpTo', 'countUpTo', 'conflictOf', 'PlanRun', 'TraceRun', 'Course', 'runTextsOf', 'runOf', 'runsOf', 'LogRun'];

function load() {
  const texts = PARTS.map((part) => fs.readFileSync(path.join(__dirname, '..', 'script', `${part}.js`), 'utf8'));
  return vm.runInThisContext(`(() => { ${texts.join('\n')}\nreturn { ${NAMES.join(', ')} }; })()`);
}

const page = load();
const MAP = page.mapOf(['...', '...']);
// robot 0 goes from 4 over 1 to 2, robot 1 from 0 over 3 back to 0
const PLAN = 'plan 3 0\n!?????C.\nns\nen\n';
const TRACE = JSON.stringify({
  chapter: 0,
  entries: [['take', 0, ['go', 0, 1], ['accepted', 1]], ['tick', [1, 3], [[0, 0, 1, 5]], []]],
  opening: { clients: [[0, 0, 0, false]], life: 100, queue: 4, robots: [[0, false, null, [], [0, 9], [0, 9]], [3, false, null, [], [0, 9], [0, 9]]], tick: 0 },
  version: 2,
});

test('placements are read from letters and signs', () => {
  const { robots, cells, end } = page.placementsOf(3, PLAN, 9, 3);
  assert.deepStrictEqual([robots, [...cells], end], [2, [4, 0, 1, 3, 2, 0], PLAN.length]);
});

test('six signs tell a cell', () => {
  // 1,000,000 is 3 times 64^3, 52 times 64^2, 9 times 64 and 0
  const { cells } = page.placementsOf(1024, '!??BsH?\n', 0, 1);
  assert.deepStrictEqual([...cells], [1000000]);
});

test('a robot that a placement leaves out is nowhere, and comes back from cell 0', () => {
  const { cells } = page.placementsOf(3, '!?????C!?????D\nn\ns!?????E\n', 0, 3);
  assert.deepStrictEqual([...cells], [4, 5, 1, -1, 4, 6]);
});

test('a robot is done when it stays for good', () => {
  const cells = Int32Array.from([4, 0, 7, 1, 0, 7, 4, 1, 7, 4, 1, 7]);
  assert.deepStrictEqual([...page.timesDone(3, cells)], [2, 2, 0]);
  assert.deepStrictEqual([...page.movesUpTo(3, cells)], [0, 1, 3, 3]);
  assert.deepStrictEqual([...page.countUpTo([2, 2, 0], 3)], [1, 1, 3, 3]);
});

test('a conflict has its time, its robots and a sentence', () => {
  assert.deepStrictEqual(page.conflictOf('invalid 12 swap 3 40'), { frame: 12, robots: [3, 40], text: 'robots 3 and 40 exchange their cells' });
  assert.deepStrictEqual(page.conflictOf('invalid 0 off-floor 7'), { frame: 0, robots: [7], text: 'robot 7 is on no floor' });
  assert.deepStrictEqual(page.conflictOf('invalid 5 length'), { frame: 5, robots: [], text: 'another number of cells than robots' });
});

test('a plan has cells, goals and figures at each step', () => {
  const run = new page.PlanRun(MAP, PLAN);
  run.seek(1);
  assert.deepStrictEqual([[...run.cells], [...run.next], run.last], [[1, 3], [2, 0], 2]);
  assert.deepStrictEqual([run.goalOf(0), run.goalOf(1), run.isIdle(0)], [2, 0, false]);
  const figures = new Map(run.figures());
  assert.deepStrictEqual([figures.get('sum of costs'), figures.get('makespan'), figures.get('moves so far')], [4, 2, 2]);
  run.seek(9);
  assert.deepStrictEqual([run.frame, run.isIdle(0), new Map(run.figures()).get('at their last cell')], [2, true, 2]);
  assert.deepStrictEqual(run.pathOf(0, -5, 1), { cells: [4, 1], here: 2 });
});

test('a plan lists its conflicts by time', () => {
  const run = new page.PlanRun(MAP, 'plan 2 2\n..\nee\ninvalid 0 vertex 0 1\ninvalid 1 vertex 0 1\n');
  assert.deepStrictEqual([run.conflictCount, run.conflicts.length], [2, 2]);
  assert.deepStrictEqual(run.faultsAt(1).map((fault) => fault.robots), [[0, 1]]);
  assert.deepStrictEqual(run.faultsAt(2), []);
});

test('runs are told apart, and chapters are none', () => {
  const trace = `trace legal\n${TRACE}\n`;
  assert.deepStrictEqual(page.runTextsOf(PLAN + trace), [PLAN, trace]);
  assert.deepStrictEqual(page.runTextsOf(trace + PLAN), [trace, PLAN]);
  const invalid = 'plan 1 1\n..\ninvalid 0 vertex 0 1\n';
  assert.deepStrictEqual(page.runTextsOf(invalid + PLAN), [invalid, PLAN]);
  assert.deepStrictEqual(page.runTextsOf(`${TRACE}\n`), []);
});

test('two runs have one clock, and the shorter one stands at its end', () => {
  const course = new page.Course([PLAN, `trace legal\n${TRACE}\n`].map((text) => page.runOf(MAP, text)));
  assert.deepStrictEqual([course.last, course.robots], [2, 2]);
  course.seek(1);
  course.go();
  const [plan, trace] = course.runs;
  assert.deepStrictEqual([[...plan.cells], [...trace.cells], trace.frame], [[2, 0], [1, 3], 1]);
  assert.strictEqual(new Map(trace.figures()).get('arrivals'), 1);
});

test('a trace is under way between two of its cells', () => {
  const run = page.runOf(MAP, `trace legal\n${TRACE}\n`);
  assert.deepStrictEqual([[...run.cells], [...run.next], run.goalOf(0), run.isIdle(1)], [[0, 3], [1, 3], 1, true]);
});

test('a trace that breaks a rule has its conflicts', () => {
  const trace = JSON.parse(TRACE);
  trace.entries = [['tick', [0, 0], [], []]];
  const run = page.runOf(MAP, `trace illegal 1 4\n${JSON.stringify(trace)}\n`);
  assert.deepStrictEqual([...run.conflicts], [{ frame: 1, robots: [0, 1], text: 'robots 0 and 1 are on cell 0' }]);
  assert.strictEqual(run.title().startsWith('trace, chapter 0, illegal at entry 1: it breaks rule 4'), true);
});

// robot 0 goes from 1 over 0 to 3, robot 1 follows from 2 to 1 and 0, and robot 2 stays on 5
const LOG = [
  '0 move 0 1 0 1', '2 reached 0', '2 move 0 0 3 2', '2 move 1 2 1 1', '3 reached 1', '6 reached 0', '6 move 1 1 0 2', '7 reached 1', '7 done',
].map((line) => `${line}\n`).join('');
const logText = (log) => `log ${log.length}\n${log}`;

test('a log has robots between two cells', () => {
  const run = page.runOf(MAP, logText(LOG));
  assert.deepStrictEqual([run.robots, run.unit, run.end, run.last], [2, 2, 7, 4]);
  assert.deepStrictEqual(run.wayOf(0, 1), [1, 0, 0.5]);
  assert.deepStrictEqual(run.wayOf(0, 3), [0, 3, 0.25]);
  assert.deepStrictEqual(run.wayOf(1, 1), [2, 2, 0]);
  assert.deepStrictEqual(run.wayOf(1, 4), [1, 1, 0]);
});

test('a log tells who holds up whom', () => {
  const run = page.runOf(MAP, logText(LOG));
  // robot 1 is ready at 0 for the cell that robot 0 has left at 2, and at 3 for the one that it has left at 6
  assert.deepStrictEqual([0, 1, 2.5, 3, 5, 6].map((time) => run.holdsAt(time)), [[[1, 0]], [[1, 0]], [], [[1, 0]], [[1, 0]], []]);
  run.seek(2);
  const figures = new Map(run.figures());
  assert.deepStrictEqual(['time', 'moves', 'reached', 'under way', 'held up'].map((name) => figures.get(name)), [4, 4, 2, 1, 1]);
});

test('without times each line of a log is one after the other', () => {
  const run = page.runOf(MAP, logText('move 0 1 0 1\nmove 1 2 1 1\nreached 1\nreached 0\nnot-under-way 0\n'));
  assert.deepStrictEqual([run.unit, run.end, run.last], [3, 4, 2]);
  assert.deepStrictEqual(run.wayOf(0, 1.5), [1, 0, 0.5]);
  assert.deepStrictEqual(run.conflicts.map(({ frame, robots }) => [frame, robots]), [[1, [0]]]);
});

test('a move that was not reached stays half way', () => {
  const run = page.runOf(MAP, logText('0 move 0 1 0 1\n4 move 1 2 1 1\n'));
  assert.deepStrictEqual(run.wayOf(0, 4), [1, 0, 0.5]);
  assert.deepStrictEqual([run.isIdle(0), run.holdsAt(3)], [false, []]);
});

test('a plan next to a log has the robots that never move', () => {
  const texts = page.runTextsOf(`${logText(LOG)}plan 1 0\nes!?????D\n`);
  assert.strictEqual(texts.length, 2);
  const [log] = page.runsOf(MAP, texts);
  assert.deepStrictEqual([log.robots, log.wayOf(2, 3)], [3, [5, 5, 0]]);
});
