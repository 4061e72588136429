// ---- what stands at a frame, and how it changes

// A robot as an opening has it at this frame.
function openedRobot([, shut, wait, errands], frame) {
  return {
    queue: errands.map(([client, number, cell]) => ({ client, number, cell })),
    // the frame at which the wait began, as if it had been counted from the first opening on
    since: wait === null ? NaN : frame - wait,
    shut: shut ? 1 : 0,
  };
}

// What stands at the first frame.
function openedState(opening) {
  const robots = opening.robots.map((robot) => openedRobot(robot, 0));
  return {
    frame: 0,
    cells: Int32Array.from(opening.robots, (robot) => robot[0]),
    queues: robots.map((robot) => robot.queue),
    since: Float64Array.from(robots, (robot) => robot.since),
    shut: Uint8Array.from(robots, (robot) => robot.shut),
  };
}

function sameQueue(one, other) {
  return one.length === other.length && one.every((errand, place) => errand.client === other[place].client
    && errand.number === other[place].number && errand.cell === other[place].cell);
}

function exchange(state, event) {
  const { robot, other } = event;
  event.other = { queue: state.queues[robot], since: state.since[robot], shut: state.shut[robot] };
  state.queues[robot] = other.queue;
  state.since[robot] = other.since;
  state.shut[robot] = other.shut;
}

// An event is a change that can be done and undone, with the entry that it stands for.
const EVENTS = {
  join: {
    go(state, event) {
      const queue = state.queues[event.robot];
      queue.push(event.errand);
      if (queue.length === 1) state.since[event.robot] = event.frame;
    },
    back(state, event) {
      const queue = state.queues[event.robot];
      queue.pop();
      if (queue.length === 0) state.since[event.robot] = NaN;
    },
  },
  withdraw: {
    go(state, event) { state.queues[event.robot].splice(event.place, 1); },
    back(state, event) { state.queues[event.robot].splice(event.place, 0, event.errand); },
  },
  arrive: {
    go(state, event) {
      const queue = state.queues[event.robot];
      event.errand = queue.shift();
      event.since = state.since[event.robot];
      state.since[event.robot] = queue.length > 0 ? event.frame : NaN;
    },
    back(state, event) {
      if (event.errand !== undefined) state.queues[event.robot].unshift(event.errand);
      state.since[event.robot] = event.since;
    },
  },
  shut: {
    go(state, event) {
      event.before = state.shut[event.robot];
      state.shut[event.robot] = 1;
    },
    back(state, event) { state.shut[event.robot] = event.before; },
  },
  // a chapter opens with another queue, wait or shut of a robot than the one before it ends with
  reopen: { go: exchange, back: exchange },
  // a chapter begins, or an order that changes nothing
  note: { go() {}, back() {} },
};

function errandPlace(state, client, number) {
  for (let robot = 0; robot < state.queues.length; robot += 1) {
    const place = state.queues[robot].findIndex((errand) => errand.client === client && errand.number === number);
    if (place >= 0) return { robot, place };
  }
  return null;
}

function takeEvent(state, entry) {
  const { frame } = state;
  const [, client, order, verdict] = entry;
  if (verdict[0] === 'accepted' && order[0] === 'go' && order[1] < state.queues.length) {
    return { kind: 'join', frame, robot: order[1], errand: { client, number: verdict[1], cell: order[2] }, entry };
  }
  if (verdict[0] === 'withdrawn' && order[0] === 'withdraw') {
    const found = errandPlace(state, client, order[1]);
    if (found !== null) {
      return { kind: 'withdraw', frame, ...found, errand: state.queues[found.robot][found.place], entry };
    }
  }
  return { kind: 'note', frame, entry };
}
