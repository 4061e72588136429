'use strict';

// The replay of one or more traces on a map. Traces are chapters that follow one another. Frame 0 is the first opening,
// frame i what stands before the tick i + 1: the tick i and all orders and shuts since. From frame to frame only what
// changes is kept, and is done or undone, so that a long trace costs no copy of all cells for each tick.

// ---- reading what the page carries

function linesOf(text) {
  return text.split('\n').filter((line) => line.length > 0);
}

function mapOf(rows) {
  const height = rows.length;
  const width = height > 0 ? rows[0].length : 0;
  const letters = rows.join('');
  const floor = new Uint8Array(height * width);
  for (let cell = 0; cell < floor.length; cell += 1) {
    const letter = letters[cell];
    floor[cell] = letter === '.' || letter === 'G' || letter === 'S' ? 1 : 0;
  }
  return { height, width, letters, floor };
}

// The judge's verdicts: null for a legal chapter, else the entry at fault (0: the opening) and the rule that it breaks.
function verdictsOf(lines) {
  return lines.map((line) => {
    const [word, at, rule] = line.split(' ');
    return word === 'legal' ? null : { at: Number(at), rule: Number(rule) };
  });
}

function traceOf(line) {
  const trace = JSON.parse(line);
  // a clock may be greater than a number of this language tells exactly
  const clock = /"tick":(\d+)\},"version":\d+\}$/.exec(line.slice(-200));
  trace.clock = BigInt(clock === null ? 0 : clock[1]);
  return trace;
}

// One line after the other, since the texts of all traces together may be long.
function tracesOf(text) {
  const traces = [];
  for (let from = 0; from < text.length;) {
    let end = text.indexOf('\n', from);
    if (end < 0) end = text.length;
    if (end > from) traces.push(traceOf(text.slice(from, end)));
    from = end + 1;
  }
  return traces;
}
