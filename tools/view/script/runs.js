// ---- runs: plans and traces that are shown next to each other, each from its first tick on

function byFrame(conflicts) {
  const found = new Map();
  for (const conflict of conflicts) {
    if (!found.has(conflict.frame)) found.set(conflict.frame, []);
    found.get(conflict.frame).push(conflict);
  }
  return found;
}

// A plan, from its text: a line with the numbers of placements and of conflicts, then these.
class PlanRun {
  constructor(map, text) {
    const head = text.indexOf('\n');
    const [, placements, conflicts] = text.slice(0, head).split(' ').map(Number);
    const { robots, cells, end } = placementsOf(map.width, text, head + 1, placements);
    this.kind = 'plan';
    this.robots = robots;
    this.all = cells;
    this.last = Math.max(0, placements - 1);
    this.conflictCount = conflicts;
    this.conflicts = linesOf(text.slice(end)).map(conflictOf);
    this.atFrame = byFrame(this.conflicts);
    this.done = timesDone(robots, cells);
    this.moves = movesUpTo(robots, cells);
    this.doneCount = countUpTo(this.done, this.last);
    this.cost = this.done.reduce((sum, time) => sum + time, 0);
    this.span = this.done.reduce((most, time) => Math.max(most, time), 0);
    this.goals = this.placementAt(this.last);
    this.seek(0);
  }

  placementAt(frame) {
    return this.all.subarray(frame * this.robots, (frame + 1) * this.robots);
  }

  seek(frame) {
    this.frame = Math.min(frame, this.last);
    this.cells = this.placementAt(this.frame);
    this.next = this.placementAt(Math.min(this.frame + 1, this.last));
  }

  // A plan says no goals of its own here: they are the last cells.
  goalOf(robot) {
    return this.goals[robot];
  }

  isIdle(robot) {
    return this.frame >= this.done[robot];
  }

  faultsAt(frame) {
    return this.atFrame.get(frame) ?? [];
  }

  pathOf(robot, from, to) {
    const first = Math.max(0, from);
    const cells = [];
    for (let frame = first; frame <= Math.min(this.last, to); frame += 1) cells.push(this.all[frame * this.robots + robot]);
    return { cells, here: this.frame - first };
  }

  title() {
    return this.conflictCount === 0 ? 'plan, valid' : 'plan, not valid';
  }

  figures() {
    return [
      ['robots', this.robots], ['steps', this.last], ['at their last cell', this.doneCount[this.frame] ?? 0],
      ['moves so far', this.moves[this.frame]], ['sum of costs', this.cost], ['makespan', this.span],
      ['conflicts', this.conflictCount],
    ];
  }
}

// What is wrong in a replay, by frames: conflicts, and what the judge names if that is none.
function conflictsIn(replay) {
  const notes = replay.events.map((events, frame) => events.filter(isConflict).map(({ entry }) => (
    { frame, robots: entry[1].robots, text: entry[1].detail }
  )));
  const others = replay.faults.filter((fault) => fault.rule !== 4 && fault.at !== 0)
    .map((fault) => ({ frame: fault.frame, robots: fault.robots, text: faultText(fault) }));
  return [...notes.flat(), ...others].sort((one, other) => one.frame - other.frame);
}

// A trace, from its text: a line with the judge's verdict, then the trace.
class TraceRun {
  constructor(map, text) {
    const head = text.indexOf('\n');
    const verdicts = verdictsOf([text.slice('trace '.length, head)]);
    this.replay = new Replay(map, tracesOf(text.slice(head + 1)), verdicts);
    const { replay } = this;
    this.kind = 'trace';
    this.robots = replay.robots;
    this.last = replay.last;
    this.conflicts = conflictsIn(replay);
    this.conflictCount = this.conflicts.length;
    this.seek(0);
  }

  seek(frame) {
    const { replay } = this;
    this.frame = Math.min(frame, this.last);
    replay.seek(this.frame);
    this.cells = replay.state.cells;
    this.next = replay.cellsAfter();
  }

  goalOf(robot) {
    const queue = this.replay.state.queues[robot];
    return queue.length > 0 ? queue[0].cell : -1;
  }

  isIdle(robot) {
    return this.replay.state.queues[robot].length === 0;
  }

  faultsAt(frame) {
    return frame > this.last ? [] : this.replay.faultsAt(frame);
  }

  pathOf(robot, from, to) {
    return this.replay.pathOf(robot, from, to);
  }

  title() {
    const { chapters, faults } = this.replay;
    return `trace, chapter ${chapters[0].number}, ${faults.length === 0 ? 'legal' : faultText(faults[0])}`;
  }

  figures() {
    const { replay, frame } = this;
    const { arrivals, unfinished, wait } = replay;
    const rate = frame === 0 ? '\u2013' : (arrivals[frame] / frame).toFixed(3);
    return [
      ['robots', this.robots], ['ticks', this.last], ['arrivals', arrivals[frame]], ['arrivals a tick', rate],
      ['unfinished', unfinished[frame]], ['longest wait', wait[frame] < 0 ? '\u2013' : wait[frame]],
      ['moves so far', replay.moveStart[frame + 1]],
    ];
  }
}

// The texts of the runs that a page carries; none if it carries chapters. Each begins with a line `plan ..`, `trace ..` or `log ..`.
function runTextsOf(text) {
  const starts = [];
  for (let at = 0; /^(plan|trace|log) /.test(text.slice(at, at + 6)) && starts.length < 2;) {
    starts.push(at);
    at = endOfRun(text, at);
  }
  return starts.map((start, place) => text.slice(start, starts[place + 1] ?? text.length));
}

// A run ends after as many lines as its head says, a log after as many bytes.
function endOfRun(text, from) {
  const first = text.indexOf('\n', from);
  const head = text.slice(from, first).split(' ');
  if (head[0] === 'log') return first + 1 + Number(head[1]);
  let lines = head[0] === 'plan' ? 1 + Number(head[1]) + Math.min(Number(head[2]), MOST_CONFLICTS) : 2;
  let at = from;
  for (; lines > 0 && at >= 0; lines -= 1) at = text.indexOf('\n', at) + 1 || text.length;
  return at;
}

function runOf(map, text) {
  if (text.startsWith('plan ')) return new PlanRun(map, text);
  return text.startsWith('log ') ? new LogRun(map, text) : new TraceRun(map, text);
}

// The runs of these texts; a log gets the robots that never move from the plan next to it.
function runsOf(map, texts) {
  const runs = texts.map((text) => runOf(map, text));
  const plan = runs.find((run) => run.kind === 'plan');
  for (const run of runs) if (run.kind === 'log' && plan !== undefined) run.beginOn(plan.placementAt(0));
  return runs;
}

// The runs under one clock: each stands at its end when it is over.
class Course {
  constructor(runs) {
    this.runs = runs;
    this.last = Math.max(...runs.map((run) => run.last));
    this.robots = Math.max(...runs.map((run) => run.robots));
    this.state = { frame: 0 };
  }

  seek(frame) {
    this.state.frame = frame;
    for (const run of this.runs) run.seek(frame);
  }

  go() {
    this.seek(this.state.frame + 1);
  }

  faultsAt(frame) {
    return this.runs.flatMap((run) => run.faultsAt(frame));
  }
}
