// ---- the page of runs: one or two, under one clock

const MOST_CONFLICT_ROWS = 200;

// All views at once, as the player draws them.
class Views {
  constructor(views) {
    this.views = views;
  }

  set pulse(part) {
    for (const view of this.views) view.pulse = part;
  }

  draw(fraction) {
    for (const view of this.views) view.draw(fraction);
  }
}

class RunsPage {
  constructor(map, runs) {
    this.map = map;
    this.runs = runs;
    this.replay = new Course(runs);
    this.picked = null;
    this.parts = runs.map((run, place) => this.partOf(run, place));
    element('sides').replaceChildren(...this.parts.map((part) => part.section));
    element('sides').classList.toggle('two', runs.length > 1);
    this.views = this.parts.map((part) => part.view);
    this.view = new Views(this.views);
    this.player = new Player(this);
    element('slider').max = String(this.replay.last);
    this.conflicts = runs.flatMap((run, place) => run.conflicts.map((conflict) => ({ place, ...conflict })))
      .sort((one, other) => one.frame - other.frame);
    this.describe();
    this.markConflicts();
    this.player.setSpeed(8);
    this.setShown('goals', this.replay.robots <= 100);
    this.setShown('lines', false);
    const asked = /(?:^#|&)t=(\d+)/.exec(location.hash);
    for (const { view, figures } of this.parts) showFigures(figures, view.run.figures());
    this.repaint();
    this.player.jump(asked === null ? 0 : Number(asked[1]));
  }

  // The map and the figures of a run.
  partOf(run, place) {
    const section = element('run-part').content.firstElementChild.cloneNode(true);
    const canvas = section.querySelector('canvas');
    const name = this.runs.length > 1 ? `${place === 0 ? 'A' : 'B'}: ${run.title()}` : run.title();
    section.querySelector('h2').textContent = name;
    section.setAttribute('aria-label', name);
    canvas.setAttribute('aria-label', `Robots on the map, ${name}`);
    const view = new RunView(canvas, this.map, run);
    new MapPointers(this.pointed(view), canvas);
    return { section, view, name, figures: section.querySelector('dl') };
  }

  // What the pointers of a map act on: its view, which the other follows.
  pointed(view) {
    const page = this;
    return {
      view,
      hovered: null,
      follow() {},
      draw() { page.showAlike(view); },
      pick(robot) { page.pick(robot); },
      tellHovered() { page.tellCell(view, this.hovered); },
    };
  }

  // All maps show what this one does.
  showAlike(view) {
    for (const other of this.views) if (other !== view) other.show(view.zoom, view.middle);
    this.draw();
  }

  describe() {
    const { map, runs, replay } = this;
    const sizes = [`${map.width} \u00d7 ${map.height} cells`, `${replay.robots} robots`, `${replay.last} ticks`];
    if (runs.length > 1) sizes.push('two runs');
    element('summary').textContent = sizes.join(' \u00b7 ');
    document.title = `Fleet: ${sizes.join(' \u00b7 ')}`;
    const { dataset } = document.body;
    dataset.runs = runs.map((run) => run.kind).join(' ');
    dataset.conflicts = runs.map((run) => run.conflictCount).join(' ');
    element('conflicts-card').hidden = this.conflicts.length === 0;
    const all = runs.reduce((sum, run) => sum + run.conflictCount, 0);
    const listed = all > this.conflicts.length ? `, the first ${this.conflicts.length} listed` : '';
    element('conflicts-count').textContent = `${all}${listed}`;
  }

  markConflicts() {
    const { last } = this.replay;
    const frames = [...new Set(this.conflicts.map(({ frame }) => frame))];
    const parts = new Set(frames.map((frame) => Math.round((last === 0 ? 0 : frame / last) * MOST_MARKS)));
    element('marks').replaceChildren(...[...parts].map((part) => {
      const mark = document.createElement('span');
      mark.className = 'fault';
      mark.style.setProperty('--part', String(part / MOST_MARKS));
      return mark;
    }));
  }

  repaint() {
    const colours = readColours(0);
    const hues = hueColours(luminanceOfHex(colours.floor));
    for (const view of this.views) {
      view.hues = hues;
      view.paintLetters(colours);
      view.resize();
    }
    this.draw();
  }

  draw() {
    this.view.draw(this.player.fraction);
    this.drawTexts();
  }

  drawTexts() {
    const { frame } = this.replay.state;
    if (this.drawnFrame === frame && this.player.playing) return;
    this.drawnFrame = frame;
    const clock = `tick ${frame} of ${this.replay.last}`;
    element('slider').value = String(frame);
    element('slider').setAttribute('aria-valuetext', clock);
    element('clock').textContent = clock;
    const now = performance.now();
    if (!this.player.playing || !(now - this.listed < 200)) {
      this.listed = now;
      for (const { view, figures } of this.parts) showFigures(figures, view.run.figures());
      this.listConflicts();
      this.tellPicked();
    }
    this.publish();
  }

  // The conflicts round the tick that is shown; a click on one goes to its tick.
  listConflicts() {
    const { frame } = this.replay.state;
    const first = firstFrom(this.conflicts, frame);
    const from = Math.max(0, Math.min(first - LISTED_BEFORE, this.conflicts.length - MOST_CONFLICT_ROWS));
    const items = this.conflicts.slice(from, from + MOST_CONFLICT_ROWS).map((conflict) => {
      const item = document.createElement('li');
      const button = document.createElement('button');
      button.type = 'button';
      button.dataset.frame = conflict.frame;
      const of = this.runs.length > 1 ? `${'AB'[conflict.place]}, ` : '';
      button.textContent = `${of}tick ${conflict.frame}: ${conflict.text}`;
      item.classList.toggle('now', conflict.frame === frame);
      item.append(button);
      return item;
    });
    const list = element('events');
    list.replaceChildren(...items);
    const near = items[Math.min(first - from, items.length - 1)];
    if (near !== undefined) list.scrollTop = near.offsetTop - list.offsetTop - list.clientHeight / 3;
  }

  // What the page shows, for tests and other tools.
  publish() {
    const { dataset } = document.body;
    const { frame } = this.replay.state;
    dataset.frame = frame;
    dataset.playing = this.player.playing;
    dataset.robot = this.picked ?? 'none';
    dataset.zoom = this.views[0].zoom.toFixed(2);
    if (this.player.playing) return;
    dataset.figures = this.parts.map(({ view }) => view.run.figures().map(([name, value]) => `${name} ${value}`).join(', ')).join('; ');
    dataset.cells = this.runs.map((run) => run.cells.slice(0, 1000).join(' ')).join(' / ');
    dataset.faults = this.runs.map((run) => run.faultsAt(frame).map((fault) => fault.robots.join(',')).join(' ')).join(' / ');
    history.replaceState(null, '', `#t=${frame}`);
  }

  announce() {
    this.say(`tick ${this.replay.state.frame}, ${this.replay.faultsAt(this.replay.state.frame).length} conflicts`);
  }

  say(text) {
    element('announce').textContent = text;
  }

  setShown(name, on) {
    for (const view of this.views) view.shows[name] = on;
    element(`show-${name}`).checked = on;
  }

  show(name, on) {
    this.setShown(name, on);
    this.draw();
  }

  zoomBy(factor) {
    const [view] = this.views;
    view.zoomAt(factor, view.canvas.width / 2, view.canvas.height / 2);
    this.showAlike(view);
  }

  pan(right, down) {
    const [view] = this.views;
    view.pan(right, down);
    this.showAlike(view);
  }

  showAll() {
    const [view] = this.views;
    view.fit();
    this.showAlike(view);
  }

  pick(robot) {
    this.picked = robot;
    for (const view of this.views) view.picked = robot;
    element('unpick').hidden = robot === null;
    this.draw();
    this.tellPicked();
  }

  pickNext(by) {
    const { robots } = this.replay;
    const from = this.picked === null ? (by > 0 ? -1 : 0) : this.picked;
    this.pick((from + by + robots) % robots);
  }

  tellPicked() {
    const { picked } = this;
    const texts = this.runs.filter((run) => picked !== null && picked < run.robots).map((run) => {
      const goal = run.goalOf(picked);
      const bound = goal < 0 ? 'no goal' : `goal ${cellName(this.map, goal)}`;
      return `cell ${cellName(this.map, run.cells[picked])}, ${bound}`;
    });
    element('picked').textContent = picked === null ? '' : `Robot ${picked}: ${texts.join('; ')}`;
  }

  tellCell(view, place) {
    const cell = place === null ? -1 : view.cellAt(...place);
    if (cell < 0) {
      element('hover').textContent = '';
      return;
    }
    const robots = [...view.run.cells.keys()].filter((robot) => view.run.cells[robot] === cell);
    element('hover').textContent = `cell ${cellName(this.map, cell)}${robots.length > 0 ? `: robot ${robots.join(', ')}` : ''}`;
  }

  // The tick before or after at which something is wrong.
  stepToConflict(direction) {
    const { frame } = this.replay.state;
    const frames = this.conflicts.map((conflict) => conflict.frame).filter((one) => (one - frame) * direction > 0);
    if (frames.length > 0) this.player.jump(direction > 0 ? frames[0] : frames[frames.length - 1]);
  }
}

function showFigures(list, figures) {
  list.replaceChildren(...figures.map(([name, value]) => {
    const part = document.createElement('div');
    const [term, told] = [document.createElement('dt'), document.createElement('dd')];
    term.textContent = name;
    told.textContent = String(value);
    part.append(term, told);
    return part;
  }));
}
