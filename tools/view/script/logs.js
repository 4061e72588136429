// ---- executions: logs of `fleet execute`

const LOG_LINE = /^(?:(\d+(?:\.\d+)?) )?(move (\d+) (\d+) (\d+) \d+|reached (\d+)|not-under-way (\d+)|done|bad-line \d+)$/;

// The events of a log, each with its time: what stands before its line, or else the number of events before it.
function logEvents(text) {
  const lines = linesOf(text).map((line) => LOG_LINE.exec(line.trim())).filter((found) => found !== null);
  const timed = lines.length > 0 && lines.every((found) => found[1] !== undefined);
  return lines.map((found, place) => {
    const [, time, word, ...numbers] = found;
    const [robot, from, to, reached, stray] = numbers.map((one) => (one === undefined ? undefined : Number(one)));
    return { time: timed ? Number(time) : place, kind: word.split(' ')[0], robot: robot ?? reached ?? stray, from, to };
  });
}

// The moves of each robot, in order. One that was not reached ends never.
function logMoves(events) {
  const moves = [];
  for (const { time, kind, robot, from, to } of events) {
    const own = moves[robot] ?? [];
    const last = own[own.length - 1];
    if (kind === 'move') {
      moves[robot] = [...own, { robot, from, to, begin: time, end: Infinity }];
    } else if (kind === 'reached' && last !== undefined && last.end === Infinity) {
      last.end = time;
    }
  }
  return Array.from(moves, (own) => own ?? []);
}

// For each move that was held up the robot that left its cell late: after the move's own robot was done with the one before.
function findHolders(moves, start) {
  const left = new Map();
  const ready = new Map();
  const inOrder = moves.flat().sort((one, other) => one.begin - other.begin);
  for (const move of inOrder) {
    move.ready = ready.get(move.robot) ?? start;
    const before = left.get(move.to);
    const late = before !== undefined && before.robot !== move.robot && (before.begin > move.ready || before.end > move.ready);
    move.holder = late && (before.end <= move.begin || before.begin > move.ready) ? before.robot : -1;
    // until the other one has come to its next cell; what holds it up after that no log says
    move.heldUntil = move.holder < 0 ? move.ready : Math.min(move.begin, before.end);
    left.set(move.from, move);
    ready.set(move.robot, move.end);
  }
}

function medianOf(numbers) {
  const sorted = [...numbers].sort((one, other) => one - other);
  return sorted[sorted.length >> 1] ?? 1;
}

// An execution under the clock of a page: a tick is as long as half of the moves take at most.
class LogRun {
  constructor(map, text) {
    const events = logEvents(text.slice(text.indexOf('\n') + 1));
    this.kind = 'log';
    this.moves = logMoves(events);
    this.robots = this.moves.length;
    this.start = Math.min(0, ...events.slice(0, 1).map(({ time }) => time));
    findHolders(this.moves, this.start);
    const ended = this.moves.flat().filter(({ end }) => end < Infinity);
    this.unit = medianOf(ended.map(({ begin, end }) => end - begin)) || 1;
    this.end = events.length === 0 ? 0 : events[events.length - 1].time;
    this.last = Math.ceil((this.end - this.start) / this.unit);
    this.conflicts = events.filter(({ kind }) => kind === 'not-under-way').map(({ time, robot }) => (
      { frame: Math.floor((time - this.start) / this.unit), robots: [robot], text: `a report named robot ${robot}, which was not under way` }
    ));
    this.conflictCount = this.conflicts.length;
    this.atFrame = byFrame(this.conflicts);
    // robots that never move are where the plan next to the log has them
    this.starts = new Int32Array(this.robots).fill(-1);
    this.moves.forEach((own, robot) => { if (own.length > 0) this.starts[robot] = own[0].from; });
    this.cells = new Int32Array(this.robots);
    this.next = new Int32Array(this.robots);
    this.seek(0);
  }

  // A plan's first placement has the robots that never move.
  beginOn(placement) {
    const count = Math.max(this.robots, placement.length);
    this.moves = Array.from({ length: count }, (_, robot) => this.moves[robot] ?? []);
    this.starts = Int32Array.from({ length: count }, (_, robot) => this.starts[robot] ?? -1);
    for (let robot = 0; robot < placement.length; robot += 1) if (this.starts[robot] < 0) this.starts[robot] = placement[robot];
    this.robots = count;
    this.cells = new Int32Array(count);
    this.next = new Int32Array(count);
    this.seek(this.frame);
  }

  timeOf(frame) {
    return Math.min(this.end, this.start + frame * this.unit);
  }

  // How many moves of a robot have begun at a time.
  begunAt(robot, time) {
    const own = this.moves[robot];
    let [low, high] = [0, own.length];
    while (low < high) {
      const middle = (low + high) >> 1;
      if (own[middle].begin <= time) low = middle + 1;
      else high = middle;
    }
    return low;
  }

  // From which cell a robot goes to which at a time, and how far it is.
  wayOf(robot, time) {
    const move = this.moves[robot][this.begunAt(robot, time) - 1];
    if (move === undefined) return [this.starts[robot], this.starts[robot], 0];
    if (move.end <= time) return [move.to, move.to, 0];
    // of a move that was not reached nobody knows how long it takes
    const part = move.end === Infinity ? 0.5 : (time - move.begin) / (move.end - move.begin);
    return [move.from, move.to, part];
  }

  seek(frame) {
    this.frame = Math.min(frame, this.last);
    const time = this.timeOf(this.frame);
    for (let robot = 0; robot < this.robots; robot += 1) [this.cells[robot], this.next[robot]] = this.wayOf(robot, time);
    this.holds = this.holdsAt(time);
  }

  // Pairs of a robot that stands ready and the one that holds it up.
  holdsAt(time) {
    const pairs = [];
    for (let robot = 0; robot < this.robots; robot += 1) {
      const next = this.moves[robot][this.begunAt(robot, time)];
      if (next !== undefined && next.holder >= 0 && next.ready <= time && time < next.heldUntil) pairs.push([robot, next.holder]);
    }
    return pairs;
  }

  goalOf(robot) {
    const own = this.moves[robot];
    return own.length === 0 ? this.starts[robot] : own[own.length - 1].to;
  }

  isIdle(robot) {
    const own = this.moves[robot];
    return own.length === 0 || own[own.length - 1].end <= this.timeOf(this.frame);
  }

  faultsAt(frame) {
    return this.atFrame.get(frame) ?? [];
  }

  pathOf(robot) {
    const cells = [this.starts[robot], ...this.moves[robot].map(({ to }) => to)];
    return { cells, here: this.begunAt(robot, this.timeOf(this.frame)) };
  }

  title() {
    return 'execution';
  }

  figures() {
    const time = this.timeOf(this.frame);
    const all = this.moves.flat();
    const [begun, reached] = [all.filter(({ begin }) => begin <= time).length, all.filter(({ end }) => end <= time).length];
    return [
      ['robots', this.robots], ['moves', all.length], ['time', Number(time.toFixed(3))], ['reached', reached],
      ['under way', begun - reached], ['held up', this.holds.length], ['ends at', Number(this.end.toFixed(3))],
    ];
  }
}
