'use strict';

// Tests of turns and pushes without a browser: node --test tools/view/test
// Expected values are worked out by hand. tools/browser/pushes.py compares more with a planner.

const assert = require('node:assert');
const fs = require('node:fs');
const path = require('node:path');
const test = require('node:test');
const vm = require('node:vm');

const text = fs.readFileSync(path.join(__dirname, '..', 'script', 'turns.js'), 'utf8');
const page = vm.runInThisContext(`(() => { ${text}\nreturn { orderOf, turnsOf, pushesOf, turnText }; })()`);

const pushes = (cells, next, order) => [...page.pushesOf(Int32Array.from(cells), Int32Array.from(next), order)];

test('the longest wait comes first, then the lesser number, and who has no errand last', () => {
  const order = page.orderOf([null, 3, 0, 3, null]);
  assert.deepStrictEqual(order, [1, 3, 2, 0, 4]);
  assert.deepStrictEqual([...page.turnsOf(order)], [4, 1, 3, 2, 5]);
});

test('a robot pushes the one that leaves the cell to which it comes', () => {
  // three in a corridor, all one cell on; the rearmost comes first
  assert.deepStrictEqual(pushes([0, 1, 2], [1, 2, 3], [0, 1, 2]), [-1, 0, 1]);
});

test('who had its turn before is followed, not pushed', () => {
  assert.deepStrictEqual(pushes([0, 1, 2], [1, 2, 3], [2, 1, 0]), [-1, -1, -1]);
  assert.deepStrictEqual(pushes([0, 1, 2], [1, 2, 3], [1, 0, 2]), [-1, -1, 1]);
});

test('on a round the last one pushes nobody', () => {
  assert.deepStrictEqual(pushes([0, 1, 3, 2], [1, 3, 2, 0], [0, 1, 2, 3]), [-1, 0, 1, 2]);
});

test('one that is pushed pushes by the turn of the one that pushes it', () => {
  // 1 would come last, and pushes 2, which comes before it, since 0 pushes it
  assert.deepStrictEqual(pushes([0, 1, 2], [1, 2, 3], [0, 2, 1]), [-1, 0, 1]);
});

test('a text says whose turn it is, and who pushes whom', () => {
  const step = { turns: [1, 3, 2], pushedBy: Int32Array.from([-1, 0, 1]) };
  assert.strictEqual(page.turnText(step, 1), 'Its turn is number 3 of 3. Robot 0 pushes it in the next tick. It pushes robot 2.');
  assert.strictEqual(page.turnText({ ...step, pushedBy: null }, 2), 'Its turn is number 2 of 3.');
});
