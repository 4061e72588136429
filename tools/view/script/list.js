// ---- the list of all events

const MOST_LISTED = 200;
const LISTED_BEFORE = 20;

const EVENT_KINDS = {
  all: () => true,
  orders: (event) => event.entry[0] === 'take',
  refusals: isRefusal,
  arrivals: (event) => event.entry[0] === 'arrival',
  shuts: (event) => event.entry[0] === 'shut' || event.entry[0] === 'farewell',
  conflicts: isConflict,
  chapters: (event) => event.entry[0] === 'chapter' || event.entry[0] === 'reopened',
};

function clientOf({ entry }) {
  if (entry[0] === 'take') return entry[1];
  return entry[0] === 'arrival' ? entry[3] : null;
}

function robotsOf(event) {
  const { entry } = event;
  switch (entry[0]) {
    case 'take': return [entry[2][0] === 'go' ? entry[2][1] : event.robot];
    case 'arrival': return [entry[2]];
    case 'conflict': return entry[1].robots;
    case 'chapter': return [];
    default: return [entry[1]];
  }
}

// The events of a kind, of a client and of a robot, with their frames; null stands for all clients or robots.
function eventsOf(replay, { kind, client, robot }) {
  const found = [];
  replay.events.forEach((events, frame) => {
    for (const event of events) {
      if (!EVENT_KINDS[kind](event)) continue;
      if (client !== null && clientOf(event) !== client) continue;
      if (robot !== null && !robotsOf(event).includes(robot)) continue;
      found.push({ frame, event });
    }
  });
  return found;
}

// The place of the first of these events that comes at a frame or later.
function firstFrom(found, frame) {
  let [low, high] = [0, found.length];
  while (low < high) {
    const middle = (low + high) >> 1;
    if (found[middle].frame < frame) low = middle + 1;
    else high = middle;
  }
  return low;
}

// Lists the events round the frame that is shown. A click on one goes to its frame.
class EventList {
  constructor(replay, jump) {
    this.replay = replay;
    this.list = element('events');
    this.choices = ['kind', 'client', 'robot'].map((name) => element(`events-${name}`));
    const clients = new Set();
    for (const events of replay.events) for (const event of events ?? []) clients.add(clientOf(event));
    clients.delete(null);
    this.offer(this.choices[1], 'all clients', 'client', [...clients].sort((one, other) => one - other));
    this.offer(this.choices[2], 'all robots', 'robot', Array.from({ length: replay.robots }, (_, robot) => robot));
    for (const choice of this.choices) choice.addEventListener('change', () => this.choose());
    this.list.addEventListener('click', (event) => {
      const button = event.target.closest('button');
      if (button !== null) jump(Number(button.dataset.frame));
    });
    this.choose();
  }

  offer(choice, all, word, numbers) {
    const option = (value, text) => {
      const made = document.createElement('option');
      made.value = value;
      made.textContent = text;
      return made;
    };
    choice.replaceChildren(option('', all), ...numbers.map((number) => option(number, `${word} ${number}`)));
  }

  choose() {
    const [kind, client, robot] = this.choices.map((choice) => choice.value);
    const number = (text) => (text === '' ? null : Number(text));
    this.found = eventsOf(this.replay, { kind, client: number(client), robot: number(robot) });
    const count = this.found.length;
    element('events-count').textContent = `${count} event${count === 1 ? '' : 's'}`;
    document.body.dataset.events = count;
    this.draw();
  }

  draw() {
    const { frame } = this.replay.state;
    const first = firstFrom(this.found, frame);
    const from = Math.max(0, Math.min(first - LISTED_BEFORE, this.found.length - MOST_LISTED));
    const items = this.found.slice(from, from + MOST_LISTED).map((one) => this.itemOf(one, frame));
    this.list.replaceChildren(...items);
    const near = items[Math.min(first - from, items.length - 1)];
    if (near !== undefined) this.list.scrollTop = near.offsetTop - this.list.offsetTop - this.list.clientHeight / 3;
  }

  itemOf({ frame, event }, now) {
    const item = document.createElement('li');
    const button = document.createElement('button');
    button.type = 'button';
    button.dataset.frame = frame;
    button.textContent = `tick ${this.replay.clockAt(frame)}: ${noteOf(this.replay.map, event.entry)}`;
    item.classList.toggle('refused', isRefusal(event) || isConflict(event));
    item.classList.toggle('now', frame === now);
    item.append(button);
    return item;
  }
}
