// ---- heat: what robots did on each cell, in the last ticks up to a frame

const HEAT_KINDS = ['came', 'stood'];

// `came` counts the ticks in which a robot came to a cell, `stood` those in which one with an errand stayed on it.
class Heat {
  constructor(replay) {
    this.replay = replay;
    this.counts = new Uint32Array(replay.map.floor.length);
    this.choose('came', 0);
  }

  // `window` is the number of ticks that are counted, 0 for all.
  choose(kind, window) {
    this.kind = kind;
    this.window = window;
    this.frame = -1;
    this.startAnew();
  }

  // By count, how many cells have it; the greatest count; and the cells whose count changed, null for all.
  startAnew() {
    this.counts.fill(0);
    this.tally = [this.counts.length];
    this.most = 0;
    this.changed = null;
  }

  change(cell, by) {
    const before = this.counts[cell];
    const now = before + by;
    this.counts[cell] = now;
    this.tally[before] -= 1;
    this.tally[now] = (this.tally[now] ?? 0) + 1;
    if (now > this.most) this.most = now;
    while (this.most > 0 && this.tally[this.most] === 0) this.most -= 1;
    if (this.changed !== null) this.changed.push(cell);
  }

  // Counts what was done in the tick to a frame, after which robots are on these cells; by -1 it is no longer counted.
  count(frame, cells, by) {
    const { replay } = this;
    if (this.kind === 'came') {
      const end = replay.moveStart[frame + 1];
      for (let at = replay.moveStart[frame]; at < end; at += 1) this.change(cells[replay.moveRobot[at]], by);
      return;
    }
    const { stood, stoodBytes } = replay;
    for (let byte = 0; byte < stoodBytes; byte += 1) {
      let bits = stood[frame * stoodBytes + byte];
      for (let robot = byte * 8; bits !== 0; robot += 1, bits >>= 1) if (bits & 1) this.change(cells[robot], by);
    }
  }

  // Moves robots on these cells by the moves of the tick to a frame, or back by sign -1.
  move(frame, cells, sign) {
    const { moveStart, moveRobot, moveDelta } = this.replay;
    for (let at = moveStart[frame]; at < moveStart[frame + 1]; at += 1) cells[moveRobot[at]] += sign * moveDelta[at];
  }

  // Counts up to the frame that the replay is at: tick by tick, unless all ticks that are counted are fewer.
  follow() {
    const { frame } = this.replay.state;
    const counted = this.window === 0 ? frame : Math.min(this.window, frame);
    if (this.frame < 0 || Math.abs(frame - this.frame) > counted) this.countAnew(frame);
    while (this.frame < frame) this.goOn();
    while (this.frame > frame) this.goBack();
  }

  countAnew(frame) {
    const cells = this.replay.state.cells.slice();
    this.startAnew();
    this.frame = frame;
    this.cells = cells.slice();
    this.first = this.window === 0 ? 0 : Math.max(0, frame - this.window);
    for (let past = frame; past > this.first; past -= 1) {
      this.count(past, cells, 1);
      this.move(past, cells, -1);
    }
    // the cells of the robots before the first tick that is counted
    this.before = cells;
  }

  goOn() {
    this.frame += 1;
    this.move(this.frame, this.cells, 1);
    this.count(this.frame, this.cells, 1);
    if (this.window === 0 || this.frame - this.window <= this.first) return;
    this.first += 1;
    this.move(this.first, this.before, 1);
    this.count(this.first, this.before, -1);
  }

  goBack() {
    this.count(this.frame, this.cells, -1);
    this.move(this.frame, this.cells, -1);
    this.frame -= 1;
    if (this.window === 0 || this.first === 0) return;
    this.count(this.first, this.before, 1);
    this.move(this.first, this.before, -1);
    this.first -= 1;
  }
}
