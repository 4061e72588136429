// ---- the replay

function countMoves(traces) {
  let moves = 0;
  let ticks = 0;
  for (const trace of traces) {
    let cells = trace.opening.robots.map((robot) => robot[0]);
    for (const entry of trace.entries) {
      if (entry[0] !== 'tick') continue;
      const to = entry[1];
      for (let robot = 0; robot < to.length; robot += 1) if (to[robot] !== cells[robot]) moves += 1;
      cells = to;
      ticks += 1;
    }
  }
  return { moves, ticks };
}

class Replay {
  // A verdict of the judge stands for each trace, in order; null says that it is legal.
  constructor(map, traces, verdicts) {
    const { moves, ticks } = countMoves(traces);
    this.map = map;
    this.last = ticks;
    this.robots = traces[0].opening.robots.length;
    this.moveStart = new Uint32Array(ticks + 2);
    this.moveRobot = new Uint16Array(moves);
    this.moveDelta = new Int32Array(moves);
    // by frame, a bit for each robot that stood still in the tick to it although it had an errand
    this.stoodBytes = Math.ceil(this.robots / 8);
    this.stood = new Uint8Array((ticks + 1) * this.stoodBytes);
    this.events = new Array(ticks + 1);
    this.arrivals = new Uint32Array(ticks + 1);
    this.unfinished = new Uint32Array(ticks + 1);
    this.idle = new Uint32Array(ticks + 1);
    this.wait = new Float64Array(ticks + 1);
    this.eldest = new Int32Array(ticks + 1);
    // by frame, the goal of the robot that was the eldest before the tick to this frame, and whence and where it went
    this.eldestGoal = new Int32Array(ticks + 1).fill(-1);
    this.eldestFrom = new Int32Array(ticks + 1);
    this.eldestTo = new Int32Array(ticks + 1);
    this.openings = [];
    this.chapters = [];
    this.faults = [];
    this.conflicts = 0;
    this.state = openedState(traces[0].opening);
    this.build(traces, verdicts);
    this.seek(0);
  }

  build(traces, verdicts) {
    let arrived = 0;
    traces.forEach((trace, place) => {
      const verdict = verdicts[place] ?? null;
      this.openChapter(trace, verdict);
      trace.entries.forEach((entry, number) => {
        const fault = verdict !== null && verdict.at === number + 1 ? detailOf(this, trace, entry, verdict) : null;
        if (entry[0] === 'tick') {
          const conflicts = verdict === null ? [] : [...faultsOfStep(this.map, this.state.cells, entry[1])];
          this.measure(arrived);
          this.addTick(entry);
          this.addConflicts(conflicts);
          arrived += entry[2].length;
        } else if (entry[0] === 'take') {
          this.push(takeEvent(this.state, entry));
        } else {
          this.push({ kind: this.kindFor('shut', entry[1]), frame: this.state.frame, robot: entry[1], entry });
        }
        if (fault !== null) this.addFault(trace, verdict, fault);
      });
      trace.entries = null;
    });
    this.measure(arrived);
  }

  openChapter(trace, verdict) {
    const { state } = this;
    const { frame } = state;
    this.chapters.push({ number: trace.chapter, frame, clock: trace.clock });
    if (this.chapters.length > 1) {
      this.push({ kind: 'note', frame, entry: ['chapter', trace.chapter] });
      for (let robot = 0; robot < this.robots; robot += 1) {
        const other = openedRobot(trace.opening.robots[robot] ?? [0, false, null, []], frame);
        const same = sameQueue(other.queue, state.queues[robot])
          && Object.is(other.since, state.since[robot]) && other.shut === state.shut[robot];
        if (!same) this.push({ kind: 'reopen', frame, robot, other, entry: ['reopened', robot] });
      }
    }
    this.openings.push({
      cells: state.cells.slice(),
      waits: Array.from(state.since, (since) => (since === since ? frame - since : null)),
      goals: state.queues.map((queue) => (queue.length > 0 ? queue[0].cell : -1)),
    });
    if (verdict !== null && verdict.at === 0) {
      this.addFault(trace, verdict, detailOfOpening(this.map, trace.opening));
      this.addConflicts([...faultsOfPlaces(this.map, trace.opening.robots.map((robot) => robot[0]))]);
    }
  }

  // Conflicts are looked for in illegal chapters alone.
  addConflicts(conflicts) {
    for (const conflict of conflicts) {
      this.conflicts += 1;
      if (this.conflicts > MOST_CONFLICTS) continue;
      this.push({ kind: 'note', frame: this.state.frame, entry: ['conflict', conflict] });
    }
  }

  addFault(trace, verdict, detail) {
    this.faults.push({ chapter: trace.chapter, ...verdict, frame: this.state.frame, ...detail });
  }

  // An illegal trace may tell of a robot that there is none of: nothing changes by that.
  kindFor(kind, robot) {
    return robot < this.robots ? kind : 'note';
  }

  push(event) {
    const { frame } = this.state;
    (this.events[frame] ??= []).push(event);
    EVENTS[event.kind].go(this.state, event);
  }

  addTick(entry) {
    const { state } = this;
    const [, to, arrived, farewells] = entry;
    const eldest = this.eldest[state.frame];
    state.frame += 1;
    const { frame } = state;
    if (eldest >= 0 && state.queues[eldest].length > 0) {
      this.eldestGoal[frame] = state.queues[eldest][0].cell;
      this.eldestFrom[frame] = state.cells[eldest];
      this.eldestTo[frame] = to[eldest] ?? state.cells[eldest];
    }
    this.addMoves(to);
    for (const arrival of arrived) {
      const event = { kind: this.kindFor('arrive', arrival[0]), frame, robot: arrival[0] };
      this.push({ ...event, entry: ['arrival', to[arrival[0]], ...arrival] });
    }
    for (const farewell of farewells) this.push({ kind: 'note', frame, entry: ['farewell', ...farewell] });
  }

  addMoves(to) {
    const { state } = this;
    let at = this.moveStart[state.frame];
    const count = Math.min(to.length, state.cells.length);
    for (let robot = 0; robot < count; robot += 1) {
      const delta = to[robot] - state.cells[robot];
      if (delta === 0) {
        if (state.queues[robot].length > 0) this.stood[state.frame * this.stoodBytes + (robot >> 3)] |= 1 << (robot & 7);
        continue;
      }
      this.moveRobot[at] = robot;
      this.moveDelta[at] = delta;
      at += 1;
      state.cells[robot] = to[robot];
    }
    this.moveStart[state.frame + 1] = at;
  }

  // the figures of the frame that the state is at
  measure(arrived) {
    const { state } = this;
    const { frame } = state;
    let unfinished = 0;
    let idle = 0;
    let eldest = -1;
    for (let robot = 0; robot < this.robots; robot += 1) {
      unfinished += state.queues[robot].length;
      if (state.queues[robot].length === 0) idle += 1;
      const since = state.since[robot];
      if (since === since && (eldest < 0 || since < state.since[eldest])) eldest = robot;
    }
    this.arrivals[frame] = arrived;
    this.unfinished[frame] = unfinished;
    this.idle[frame] = idle;
    this.eldest[frame] = eldest;
    this.wait[frame] = eldest < 0 ? -1 : frame - state.since[eldest];
  }

  go() {
    const { state } = this;
    state.frame += 1;
    for (let at = this.moveStart[state.frame]; at < this.moveStart[state.frame + 1]; at += 1) {
      state.cells[this.moveRobot[at]] += this.moveDelta[at];
    }
    for (const event of this.events[state.frame] ?? []) EVENTS[event.kind].go(state, event);
  }

  back() {
    const { state } = this;
    const events = this.events[state.frame] ?? [];
    for (let place = events.length - 1; place >= 0; place -= 1) EVENTS[events[place].kind].back(state, events[place]);
    for (let at = this.moveStart[state.frame]; at < this.moveStart[state.frame + 1]; at += 1) {
      state.cells[this.moveRobot[at]] -= this.moveDelta[at];
    }
    state.frame -= 1;
  }

  seek(frame) {
    while (this.state.frame < frame) this.go();
    while (this.state.frame > frame) this.back();
  }

  // Whose turn it is in the next tick; worked out once a frame.
  turnsNow() {
    if (this.stepTurns?.frame !== this.state.frame) this.stepTurns = stepTurns(this);
    return this.stepTurns;
  }

  // The robots' cells after the next tick.
  cellsAfter() {
    const { frame, cells } = this.state;
    const next = cells.slice();
    if (frame === this.last) return next;
    for (let at = this.moveStart[frame + 1]; at < this.moveStart[frame + 2]; at += 1) next[this.moveRobot[at]] += this.moveDelta[at];
    return next;
  }

  waitOf(robot) {
    const since = this.state.since[robot];
    return since === since ? this.state.frame - since : null;
  }

  chapterAt(frame) {
    let chapter = this.chapters[0];
    for (const next of this.chapters) if (next.frame <= frame) chapter = next;
    return chapter;
  }

  clockAt(frame) {
    const chapter = this.chapterAt(frame);
    return chapter.clock + BigInt(frame - chapter.frame);
  }

  // The frame at which the clock shows this tick.
  frameOf(clock) {
    const frame = clock - this.chapters[0].clock;
    if (frame <= 0n) return 0;
    return frame >= BigInt(this.last) ? this.last : Number(frame);
  }

  // What is wrong at a frame: what the judge names, and each conflict.
  faultsAt(frame) {
    const conflicts = (this.events[frame] ?? []).filter(isConflict).map((event) => event.entry[1]);
    return [...this.faults.filter((fault) => fault.frame === frame), ...conflicts];
  }

  arrivedAt(frame) {
    return (this.events[frame] ?? []).filter((event) => event.kind === 'arrive').map((event) => event.robot);
  }

  // The cells of a robot at the frames from one to another, the last one included.
  pathOf(robot, from, to) {
    const { frame } = this.state;
    const first = Math.max(0, from);
    const last = Math.min(this.last, to);
    const cells = [this.state.cells[robot]];
    for (let past = frame; past > first; past -= 1) cells.unshift(cells[0] - this.deltaOf(robot, past));
    for (let next = frame + 1; next <= last; next += 1) cells.push(cells[cells.length - 1] + this.deltaOf(robot, next));
    return { cells, here: frame - first };
  }

  // By how much the cell of a robot changes in the tick to a frame. The robots of a frame's moves rise.
  deltaOf(robot, frame) {
    let low = this.moveStart[frame];
    let high = this.moveStart[frame + 1];
    while (low < high) {
      const middle = (low + high) >> 1;
      if (this.moveRobot[middle] < robot) low = middle + 1;
      else high = middle;
    }
    return low < this.moveStart[frame + 1] && this.moveRobot[low] === robot ? this.moveDelta[low] : 0;
  }
}
