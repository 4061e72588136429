// ---- what the page shows

const HEAT_TEXTS = { came: 'a robot came to the cell', stood: 'a robot with an errand stood on the cell' };

function element(name) {
  return document.getElementById(name);
}

class Page {
  constructor(map, replay) {
    this.map = map;
    this.replay = replay;
    this.hovered = null;
    this.player = new Player(this);
    this.address = new Address(this);
    this.view = new MapView(element('map'), replay);
    this.waitChart = new Chart(element('wait-chart'), replay.wait, 'longest wait');
    this.charts = [
      new Chart(element('arrivals-chart'), recentArrivals(replay.arrivals), `arrivals in ${WINDOW} ticks`),
      new Chart(element('idle-chart'), replay.idle, 'idle robots'),
      this.waitChart,
    ];
    this.table = new RobotTable(element('robots'), replay);
    this.events = new EventList(replay, (frame) => this.player.jump(frame));
    element('slider').max = String(replay.last);
    this.describe();
    this.showVerdict();
    this.player.setSpeed(8);
    this.repaint();
    this.address.read();
  }

  describe() {
    const { map, replay } = this;
    const { chapters } = replay;
    const [first, last] = [chapters[0].number, chapters[chapters.length - 1].number];
    const named = first === last ? `chapter ${first}` : `chapters ${first} to ${last}`;
    const sizes = [`${map.width} \u00d7 ${map.height} cells`, `${replay.robots} robots`, named, `${replay.last} ticks`];
    const text = sizes.join(' \u00b7 ');
    element('summary').textContent = text;
    document.title = `Fleet: ${text}`;
    for (const chart of this.charts) chart.ends = [`tick ${replay.clockAt(0)}`, `tick ${replay.clockAt(replay.last)}`];
  }

  // The judge's verdict: a line for each chapter that is illegal, with a jump to the tick, and a mark on the slider.
  showVerdict() {
    const { faults, conflicts } = this.replay;
    const { dataset } = document.body;
    dataset.verdict = faults.length === 0 ? 'legal' : 'illegal';
    dataset.faultFrames = faults.map((fault) => fault.frame).join(' ');
    dataset.conflicts = conflicts;
    dataset.faultRobots = faults.map((fault) => fault.robots.join(',')).join(' ');
    element('judged').textContent = faults.length === 0 ? 'judged legal' : '';
    element('verdict').hidden = faults.length === 0;
    element('verdict').replaceChildren(...bannerLines(this.replay, (frame) => this.player.jump(frame)));
    showMarks(element('marks'), this.replay);
  }

  // A new size or new colours.
  repaint() {
    const colours = readColours(this.replay.robots);
    this.colours = colours;
    this.view.paintLetters(colours);
    this.view.resize();
    for (const chart of this.charts) chart.paint(colours, this.view.ratio);
    this.draw();
  }

  draw() {
    this.view.draw(this.player.fraction);
    this.drawTexts();
    if (this.view.shows.heat) this.showScale();
  }

  // How many bridges there are, and how many cells are not roomy; in the legend the signs for both.
  tellRoomy(on) {
    for (const item of document.querySelectorAll('.of-roomy')) item.hidden = !on;
    if (!on) return;
    const { bridges, unroomy } = this.view.findRoominess();
    const count = unroomy.reduce((sum, is) => sum + is, 0);
    const of = `${count} of ${countFloor(this.map)} cells ${count === 1 ? 'is' : 'are'} not roomy for ${this.replay.robots} robots`;
    element('roomy-told').textContent = `${bridges.length} bridges; ${of}.`;
    document.body.dataset.bridges = bridges.map((ends) => ends.join('-')).join(' ');
    document.body.dataset.unroomy = [...unroomy.keys()].filter((cell) => unroomy[cell]).join(' ');
  }

  // The scale of the heat, from no robot to the most on one cell.
  showScale() {
    const { heat, mostHeat } = this.view;
    const text = `${mostHeat} time${mostHeat === 1 ? '' : 's'} ${HEAT_TEXTS[heat.kind]}`;
    if (element('heat-most').textContent !== text) element('heat-most').textContent = text;
    if (this.player.playing) return;
    let cells = '';
    for (let cell = 0; cell < heat.counts.length && cells.length < 2000; cell += 1) {
      if (heat.counts[cell] > 0) cells += ` ${cell}:${heat.counts[cell]}`;
    }
    document.body.dataset.heat = cells.trim();
  }

  // `window` is a number of ticks, 0 for all up to the one that is shown.
  chooseHeat(kind, window) {
    this.view.heat.choose(kind, window);
    element('heat-kind').value = kind;
    element('heat-window').value = String(window);
    this.setShown('heat', true);
  }

  // The texts of a frame. While the replay plays, the table and the lists are written a few times a second.
  drawTexts() {
    const { replay } = this;
    const { frame } = replay.state;
    if (this.drawnFrame === frame && this.player.playing) return;
    this.drawnFrame = frame;
    for (const chart of this.charts) chart.draw(frame);
    element('slider').value = String(frame);
    const clock = `tick ${replay.clockAt(frame)} of ${replay.clockAt(replay.last)}`;
    element('slider').setAttribute('aria-valuetext', clock);
    element('clock').textContent = clock;
    element('arrivals').textContent = replay.arrivals[frame];
    element('unfinished').textContent = replay.unfinished[frame];
    element('wait').textContent = replay.wait[frame] < 0 ? '\u2013' : replay.wait[frame];
    element('eldest').textContent = replay.eldest[frame] < 0 ? '\u2013' : replay.eldest[frame];
    this.tellHovered();
    const now = performance.now();
    if (!this.player.playing || !(now - this.listed < 200)) {
      this.listed = now;
      this.table.draw(this.colours, this.view.picked);
      showEntries(element('entries'), replay);
      this.events.draw();
      const { picked } = this.view;
      element('picked').textContent = picked === null ? '' : `${robotText(replay, picked)} ${turnText(replay.turnsNow(), picked)}`;
    }
    this.publish();
    this.address.follow();
  }

  // What the page shows, for tests and other tools.
  publish() {
    const { replay } = this;
    const { frame, cells, queues, shut } = replay.state;
    const { dataset } = document.body;
    dataset.frame = frame;
    dataset.clock = replay.clockAt(frame);
    dataset.chapter = replay.chapterAt(frame).number;
    dataset.arrivals = replay.arrivals[frame];
    dataset.unfinished = replay.unfinished[frame];
    dataset.wait = replay.wait[frame] < 0 ? 'none' : replay.wait[frame];
    dataset.eldest = replay.eldest[frame] < 0 ? 'none' : replay.eldest[frame];
    dataset.cells = cells.join(' ');
    dataset.goals = queues.map((queue) => (queue.length > 0 ? queue[0].cell : '-')).join(' ');
    dataset.queues = queues.map((queue) => queue.length).join(' ');
    dataset.shut = shut.join(' ');
    dataset.arrived = replay.arrivedAt(frame).join(' ');
    dataset.playing = this.player.playing;
    dataset.robot = this.view.picked ?? 'none';
    dataset.zoom = this.view.zoom.toFixed(2);
    dataset.middle = `${this.view.middle.x.toFixed(2)} ${this.view.middle.y.toFixed(2)}`;
    if (!this.player.playing) {
      dataset.waits = queues.map((_, robot) => replay.waitOf(robot) ?? '-').join(' ');
      dataset.moves = replay.moveStart[frame + 1];
      const { turns, pushedBy } = replay.turnsNow();
      dataset.turns = turns.join(' ');
      dataset.pushes = pushedBy === null ? 'unknown' : pushedBy.join(' ');
    }
  }

  // Works out the bound on waits, a few milliseconds at a time.
  searchBound() {
    const search = findBound(this.map, this.replay);
    const slice = () => {
      const end = performance.now() + 8;
      let step = search.next();
      while (!step.done && performance.now() < end) step = search.next();
      if (step.done) this.showBound(step.value);
      else setTimeout(slice, 0);
    };
    setTimeout(slice, 0);
  }

  showBound({ bound, text }) {
    element('bound').textContent = text;
    document.body.dataset.bound = bound ?? 'none';
    this.waitChart.setLimit(bound);
    this.waitChart.paint(this.colours, this.view.ratio);
    this.waitChart.draw(this.replay.state.frame);
  }

  announce() {
    const { replay } = this;
    const { frame } = replay.state;
    const fault = replay.faults.find((one) => one.frame === frame);
    const [arrivals, unfinished] = [replay.arrivals[frame], replay.unfinished[frame]];
    const said = `tick ${replay.clockAt(frame)}, ${arrivals} arrivals, ${unfinished} unfinished`;
    this.say(fault === undefined ? said : `${said}; ${faultText(fault)}`);
  }

  say(text) {
    element('announce').textContent = text;
  }

  // ---- view

  setShown(name, on) {
    this.view.shows[name] = on;
    element(`show-${name}`).checked = on;
    if (name === 'heat') element('heat-scale').hidden = !on;
    if (name === 'roomy') this.tellRoomy(on);
    if (name === 'turns') for (const item of document.querySelectorAll('.of-turns')) item.hidden = !on;
  }

  show(name, on) {
    this.setShown(name, on);
    this.draw();
  }

  zoomBy(factor) {
    const { canvas } = this.view;
    this.view.zoomAt(factor, canvas.width / 2, canvas.height / 2);
    this.draw();
  }

  pan(right, down) {
    this.follow(false);
    this.view.pan(right, down);
    this.draw();
  }

  showAll() {
    this.follow(false);
    this.view.fit();
    this.draw();
  }

  follow(on) {
    this.view.follows = on;
    element('follow').checked = on;
  }

  // Whether there is such a robot; null picks none.
  setPicked(robot) {
    const known = robot !== null && robot >= 0 && robot < this.replay.robots;
    this.view.picked = known ? robot : null;
    if (!known) this.follow(false);
    element('unpick').hidden = !known;
    return known;
  }

  pick(robot) {
    const known = this.setPicked(robot);
    this.draw();
    if (known) {
      this.table.reveal(robot);
      this.say(robotText(this.replay, robot));
    }
  }

  pickNext(by) {
    const { robots } = this.replay;
    const { picked } = this.view;
    const from = picked === null ? (by > 0 ? -1 : 0) : picked;
    this.pick((from + by + robots) % robots);
  }

  tellHovered() {
    const cell = this.hovered === null ? -1 : this.view.cellAt(...this.hovered);
    element('hover').textContent = cell < 0 ? '' : this.cellText(cell);
  }

  cellText(cell) {
    const robots = [];
    this.replay.state.cells.forEach((place, robot) => { if (place === cell) robots.push(robot); });
    const text = `cell ${cellName(this.map, cell)}`;
    return robots.length === 0 ? text : `${text}: robot${robots.length > 1 ? 's' : ''} ${robots.join(', ')}`;
  }

  // The cell in the middle of what is shown, for those who have no pointer.
  tellMiddle() {
    const { canvas } = this.view;
    const text = this.cellText(this.view.cellAt(canvas.width / 2, canvas.height / 2));
    element('hover').textContent = text;
    this.say(text);
  }

  savePicture() {
    element('map').toBlob((picture) => {
      const link = document.createElement('a');
      link.href = URL.createObjectURL(picture);
      link.download = `fleet_tick_${this.replay.clockAt(this.replay.state.frame)}.png`;
      link.click();
      setTimeout(() => URL.revokeObjectURL(link.href), 1000);
    }, 'image/png');
  }

  // A short message next to the map, for the eye and the ear.
  tell(text) {
    element('hover').textContent = text;
    this.say(text);
  }
}
