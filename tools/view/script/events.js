// ---- texts next to the map

const REFUSALS = [
  '', 'client-closed', 'no-robot', 'robot-shut', 'no-cell', 'blocked', 'unreachable', 'queue-full', 'life-spent',
  'no-errand', 'too-late',
];
const MOST_ENTRIES = 200;

function cellName(map, cell) {
  return `${cell} (row ${Math.floor(cell / map.width)}, column ${cell % map.width})`;
}

function orderText(map, client, order) {
  if (order[0] === 'go') return `client ${client} sends robot ${order[1]} to cell ${cellName(map, order[2])}`;
  if (order[0] === 'withdraw') return `client ${client} withdraws its errand ${order[1]}`;
  return `client ${client} closes`;
}

function verdictText(verdict) {
  if (verdict[0] === 'accepted') return `accepted as errand ${verdict[1]}`;
  if (verdict[0] === 'refused') return `refused: ${REFUSALS[verdict[1]] ?? verdict[1]}`;
  return verdict[0];
}

// What the list of entries says of an event.
function noteOf(map, entry) {
  switch (entry[0]) {
    case 'take': return `${orderText(map, entry[1], entry[2])}: ${verdictText(entry[3])}`;
    case 'arrival': {
      const [, cell, robot, client, number, stamp] = entry;
      const where = cell === undefined ? 'it does not say where' : `cell ${cellName(map, cell)}`;
      return `robot ${robot} arrives at ${where}: errand ${number} of client ${client}, stamp ${stamp}`;
    }
    case 'farewell': return `robot ${entry[1]} takes its farewell with stamp ${entry[2]}`;
    case 'shut': {
      const farewell = entry.length > 2 ? `, and takes its farewell with stamp ${entry[2]}` : '';
      return `robot ${entry[1]} is shut${farewell}`;
    }
    case 'reopened': return `robot ${entry[1]} has another queue, wait or state than at the end of the chapter before`;
    case 'conflict': return entry[1].detail;
    default: return `chapter ${entry[1]} begins`;
  }
}

function isRefusal({ entry }) {
  return entry[0] === 'take' && entry[3][0] === 'refused';
}

function isConflict({ entry }) {
  return entry[0] === 'conflict';
}

function showEntries(list, replay) {
  const { frame } = replay.state;
  const events = replay.events[frame] ?? [];
  const items = events.slice(0, MOST_ENTRIES).map((event) => {
    const item = document.createElement('li');
    item.textContent = noteOf(replay.map, event.entry);
    item.classList.toggle('refused', isRefusal(event) || isConflict(event));
    return item;
  });
  if (events.length > MOST_ENTRIES || events.length === 0) {
    const item = document.createElement('li');
    item.className = 'soft';
    item.textContent = events.length === 0 ? 'none' : `and ${events.length - MOST_ENTRIES} more`;
    items.push(item);
  }
  list.replaceChildren(...items);
}

function stateText(shut, idle) {
  if (shut) return idle ? 'shut, done' : 'shut';
  return idle ? 'idle' : '';
}

function textCell(row) {
  const cell = document.createElement('td');
  row.append(cell);
  return cell;
}

class RobotTable {
  constructor(body, replay) {
    this.replay = replay;
    this.rows = Array.from({ length: replay.robots }, (_, robot) => {
      const row = document.createElement('tr');
      row.dataset.robot = robot;
      const name = document.createElement('th');
      name.scope = 'row';
      const button = document.createElement('button');
      button.type = 'button';
      button.className = 'pick';
      button.setAttribute('aria-pressed', 'false');
      const dot = document.createElement('span');
      dot.className = 'dot';
      button.append(dot, String(robot));
      name.append(button);
      row.append(name);
      body.append(row);
      const cells = Array.from({ length: 6 }, () => textCell(row));
      return { row, dot, button, cells, shown: [] };
    });
  }

  // Scrolls the table's own box, and nothing else, until the robot's row is in it.
  reveal(robot) {
    const { row } = this.rows[robot];
    const table = row.closest('table');
    const box = table.parentElement;
    const top = row.offsetTop - table.tHead.offsetHeight;
    const bottom = row.offsetTop + row.offsetHeight;
    if (top < box.scrollTop) box.scrollTop = top;
    else if (bottom > box.scrollTop + box.clientHeight) box.scrollTop = bottom - box.clientHeight;
  }

  // Only what changed is written.
  draw(colours, picked) {
    const { replay } = this;
    const { turns } = replay.turnsNow();
    const { cells, queues, shut, frame } = replay.state;
    for (let robot = 0; robot < replay.robots; robot += 1) {
      const { row, dot, button, cells: places, shown } = this.rows[robot];
      const queue = queues[robot];
      const idle = queue.length === 0;
      const wait = replay.waitOf(robot);
      const goal = idle ? '\u2013' : queue[0].cell;
      const texts = [cells[robot], goal, queue.length, wait ?? '\u2013', turns[robot], stateText(shut[robot], idle)];
      texts.forEach((text, place) => {
        if (shown[place] === text) return;
        shown[place] = text;
        places[place].textContent = text;
      });
      const colour = idle ? colours.idle : colours.robots[robot].fill;
      const marks = [colour, replay.eldest[frame] === robot, picked === robot];
      if (shown[6] !== marks[0]) dot.style.background = marks[0];
      if (shown[7] !== marks[1]) row.classList.toggle('eldest', marks[1]);
      if (shown[8] !== marks[2]) {
        row.classList.toggle('picked', marks[2]);
        button.setAttribute('aria-pressed', marks[2]);
      }
      [shown[6], shown[7], shown[8]] = marks;
    }
  }
}

const MOST_ERRANDS = 20;

// What is said of the picked robot.
function robotText(replay, robot) {
  const queue = replay.state.queues[robot];
  const wait = replay.waitOf(robot);
  const place = `Robot ${robot} is on cell ${cellName(replay.map, replay.state.cells[robot])}.`;
  if (queue.length === 0) return `${place} ${replay.state.shut[robot] ? 'It is shut, and done.' : 'It is idle.'}`;
  const errands = queue.map((errand) => `${errand.cell} (client ${errand.client}, errand ${errand.number})`);
  const more = queue.length > MOST_ERRANDS ? `, and ${queue.length - MOST_ERRANDS} more` : '';
  const cells = `${queue.length === 1 ? 'cell' : 'cells'} ${errands.slice(0, MOST_ERRANDS).join(', then ')}${more}`;
  return `${place} It has waited ${wait} tick${wait === 1 ? '' : 's'}, and is sent to ${cells}.`;
}
