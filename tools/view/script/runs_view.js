// ---- a run on its canvas

// hues of robots; robots of one hue are drawn together
const HUES = 24;
// from this width of a cell on, in pixels, robots are discs, and below it squares
const LEAST_DISC = 7;
const HEADING = 0.6;
// more robots than this on the canvas are drawn at once, without numbers
const MOST_DISCS = 1500;
// the least height of a map, in pixels
const LEAST_RUN_HIGH = 60;

// A colour for each hue, and robots by their hues.
function hueColours(floor) {
  return Array.from({ length: HUES }, (_, hue) => robotColour(hue, floor));
}

class RunView extends MapFloor {
  constructor(canvas, map, run) {
    super(canvas, map);
    this.run = run;
    this.shows = { goals: false, lines: false };
    this.picked = null;
    this.pulse = 0;
    this.xs = new Float32Array(run.robots);
    this.ys = new Float32Array(run.robots);
    this.stamps = new Stamps(this);
    this.leastHigh = LEAST_RUN_HIGH;
  }

  // In one column each map may be as high as most of the window; else its figures and the time stay in sight.
  room() {
    const { innerHeight } = window;
    if (matchMedia('(max-width: 900px)').matches) return Math.max(LEAST_RUN_HIGH, innerHeight * 0.6);
    const figures = Array.from(document.querySelectorAll('.sides dl'), (list) => list.offsetHeight);
    const below = Math.max(...figures) + element('time').offsetHeight + 2 * BELOW;
    return Math.max(LEAST_HIGH, innerHeight - this.above() - below);
  }

  // Where the robots are drawn. One that is nowhere, or off the map, is not drawn.
  placeRobots(fraction) {
    const { run } = this;
    const part = Math.max(0, fraction);
    if (run.kind === 'log') {
      const time = run.timeOf(run.frame + part);
      for (let robot = 0; robot < run.robots; robot += 1) this.put(robot, ...run.wayOf(robot, time));
    } else {
      for (let robot = 0; robot < run.robots; robot += 1) this.put(robot, run.cells[robot], run.next[robot], part);
    }
  }

  // Puts a robot between two cells.
  put(robot, cell, next, part) {
    const { map, view, xs, ys } = this;
    const { width } = map;
    const cells = map.floor.length;
    if (cell < 0 || cell >= cells) {
      xs[robot] = NaN;
      return;
    }
    const other = next >= 0 && next < cells ? next : cell;
    const [column, row] = [cell % width, Math.floor(cell / width)];
    xs[robot] = view.left + (column + (other % width - column) * part + 0.5) * view.scale;
    ys[robot] = view.top + (row + (Math.floor(other / width) - row) * part + 0.5) * view.scale;
  }

  // From each robot that stands ready a line to the one that holds it up.
  drawHolds() {
    const { pen, view, run, xs, ys } = this;
    pen.strokeStyle = this.colours.mark;
    pen.lineWidth = Math.max(1.5 * this.ratio, Math.min(view.scale / 8, 5 * this.ratio));
    pen.setLineDash([pen.lineWidth, pen.lineWidth]);
    pen.beginPath();
    for (const [robot, holder] of run.holds) {
      pen.moveTo(xs[robot], ys[robot]);
      pen.lineTo(xs[holder], ys[holder]);
    }
    pen.stroke();
    pen.setLineDash([]);
  }

  isOnCanvas(x, y) {
    const { canvas, view } = this;
    return x > -view.scale && y > -view.scale && x < canvas.width + view.scale && y < canvas.height + view.scale;
  }

  robotAt(x, y, near) {
    let best = null;
    let least = Math.max(this.view.scale * 0.55, near * this.ratio);
    for (let robot = 0; robot < this.run.robots; robot += 1) {
      const far = Math.hypot(this.xs[robot] - x, this.ys[robot] - y);
      if (far < least) [best, least] = [robot, far];
    }
    return best;
  }

  countOnCanvas() {
    let count = 0;
    for (let robot = 0; robot < this.run.robots; robot += 1) if (this.isOnCanvas(this.xs[robot], this.ys[robot])) count += 1;
    return count;
  }

  draw(fraction) {
    const { run } = this;
    this.placeRobots(run.frame === run.last ? 0 : fraction);
    const many = this.countOnCanvas() > MOST_DISCS;
    const numbered = !many && this.view.scale >= LEAST_NUMBERED * this.ratio;
    if (many) this.stamps.draw();
    else this.drawGround(numbered);
    if (this.picked !== null && this.picked < run.robots) this.drawPath(this.picked);
    if (this.shows.lines) this.drawLines();
    if (this.shows.goals) this.drawGoals();
    if (!many) this.drawRobots();
    if (numbered) this.drawHeadings();
    if (numbered) this.drawNumbers();
    if (run.kind === 'log') this.drawHolds();
    this.drawPicked();
    this.drawFaults();
  }

  // Calls `put` with each robot that is on the canvas, those of one hue together, after `colour` with that hue.
  eachByHue(colour, put) {
    const { run, xs, ys } = this;
    for (let hue = 0; hue < HUES; hue += 1) {
      colour(hue);
      for (let robot = hue; robot < run.robots; robot += HUES) {
        if (this.isOnCanvas(xs[robot], ys[robot])) put(robot, xs[robot], ys[robot]);
      }
    }
  }

  drawRobots() {
    const { pen, view, run } = this;
    const disc = view.scale >= LEAST_DISC * this.ratio;
    const radius = Math.max(view.scale * (disc ? 0.42 : 0.5), 0.75 * this.ratio);
    const put = disc ? (x, y) => {
      pen.beginPath();
      pen.arc(x, y, radius, 0, 2 * Math.PI);
      pen.fill();
    } : (x, y) => pen.fillRect(x - radius, y - radius, 2 * radius, 2 * radius);
    const idle = [];
    this.eachByHue((hue) => { pen.fillStyle = this.hues[hue].fill; }, (robot, x, y) => {
      if (run.isIdle(robot)) idle.push(robot);
      else put(x, y);
    });
    pen.fillStyle = this.colours.idle;
    for (const robot of idle) put(this.xs[robot], this.ys[robot]);
  }

  // A ring round the picked robot.
  drawPicked() {
    const { pen, view, picked } = this;
    if (picked === null || !this.isOnCanvas(this.xs[picked], this.ys[picked])) return;
    pen.strokeStyle = this.colours.accent;
    pen.lineWidth = Math.max(2 * this.ratio, view.scale / 10);
    pen.beginPath();
    pen.arc(this.xs[picked], this.ys[picked], Math.max(view.scale * 0.62, 5 * this.ratio), 0, 2 * Math.PI);
    pen.stroke();
  }

  // A short line from each robot that moves, in the direction of its next cell.
  drawHeadings() {
    const { pen, view, run, map } = this;
    pen.strokeStyle = this.colours.ink;
    pen.lineWidth = Math.max(1, Math.min(view.scale / 12, 4 * this.ratio));
    pen.beginPath();
    for (let robot = 0; robot < run.robots; robot += 1) {
      const [from, to] = [run.cells[robot], run.next[robot]];
      const [x, y] = [this.xs[robot], this.ys[robot]];
      if (from === to || from < 0 || to < 0 || !this.isOnCanvas(x, y)) continue;
      const across = Math.sign(to % map.width - from % map.width);
      const down = Math.sign(Math.floor(to / map.width) - Math.floor(from / map.width));
      pen.moveTo(x + across * view.scale * 0.3, y + down * view.scale * 0.3);
      pen.lineTo(x + across * view.scale * HEADING, y + down * view.scale * HEADING);
    }
    pen.stroke();
  }

  drawNumbers() {
    const { pen, view, run } = this;
    const part = run.robots > 1000 ? 0.3 : run.robots > 100 ? 0.36 : 0.46;
    pen.font = `600 ${Math.max(view.scale * part, 5.5 * this.ratio).toFixed(1)}px system-ui, sans-serif`;
    pen.textAlign = 'center';
    pen.textBaseline = 'middle';
    this.eachByHue(() => {}, (robot, x, y) => {
      pen.fillStyle = run.isIdle(robot) ? this.colours.digitsOnIdle : this.hues[robot % HUES].digits;
      pen.fillText(String(robot), x, y);
    });
  }

  // The goals of all robots, or of the picked one.
  drawGoals() {
    const { pen, view, run } = this;
    const half = Math.max(view.scale * 0.38, this.ratio);
    pen.lineWidth = Math.max(1, Math.min(view.scale / 12, 5 * this.ratio));
    for (let robot = 0; robot < run.robots; robot += 1) {
      const goal = run.goalOf(robot);
      if (goal < 0 || run.isIdle(robot)) continue;
      if (this.picked !== null && this.picked !== robot) continue;
      const [x, y] = this.pointOf(goal);
      if (!this.isOnCanvas(x, y)) continue;
      pen.strokeStyle = this.hues[robot % HUES].fill;
      pen.strokeRect(x - half, y - half, 2 * half, 2 * half);
    }
  }

  drawLines() {
    const { pen, view, run } = this;
    pen.lineWidth = Math.max(1, Math.min(view.scale / 14, 5 * this.ratio));
    pen.globalAlpha = run.robots > 100 ? 0.25 : 0.45;
    this.eachByHue((hue) => { pen.strokeStyle = this.hues[hue].fill; }, (robot, x, y) => {
      const goal = run.goalOf(robot);
      if (goal < 0 || run.isIdle(robot)) return;
      if (this.picked !== null && this.picked !== robot) return;
      pen.beginPath();
      pen.moveTo(x, y);
      pen.lineTo(...this.pointOf(goal));
      pen.stroke();
    });
    pen.globalAlpha = 1;
  }

  // Where the picked robot was, and where it goes, dotted.
  drawPath(robot) {
    const { pen, view, run } = this;
    const { cells, here } = run.pathOf(robot, run.frame - PATH_FRAMES, run.frame + PATH_FRAMES);
    pen.strokeStyle = this.hues[robot % HUES].fill;
    pen.lineJoin = 'round';
    pen.lineWidth = Math.max(2 * this.ratio, Math.min(view.scale / 6, 8 * this.ratio));
    const along = (part, dashes, alpha) => {
      pen.setLineDash(dashes);
      pen.globalAlpha = alpha;
      pen.beginPath();
      for (const cell of part) if (cell >= 0) pen.lineTo(...this.pointOf(cell));
      pen.stroke();
    };
    along(cells.slice(0, here + 1), [], 0.5);
    along(cells.slice(here), [pen.lineWidth, pen.lineWidth * 1.5], 0.8);
    pen.setLineDash([]);
    pen.globalAlpha = 1;
  }

  // A frame round each robot that breaks a rule at this tick.
  drawFaults() {
    const { pen, view, run } = this;
    const half = Math.max(view.scale * (0.55 + 0.2 * this.pulse), 6 * this.ratio);
    pen.strokeStyle = this.colours.fault;
    pen.lineWidth = Math.max(2 * this.ratio, Math.min(view.scale / 8, 8 * this.ratio));
    for (const fault of run.faultsAt(run.frame)) {
      for (const robot of fault.robots) {
        const [x, y] = [this.xs[robot], this.ys[robot]];
        if (this.isOnCanvas(x, y)) pen.strokeRect(x - half, y - half, 2 * half, 2 * half);
      }
    }
  }
}
