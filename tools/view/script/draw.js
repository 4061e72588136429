// ---- the map on its canvas

const LEAST_NUMBERED = 9;
const PATH_FRAMES = 30;
// the radius of a robot in cells: small cells are filled
const RADIUS = 0.38;
const RADIUS_IN_SMALL_CELLS = 0.47;
const SMALL_CELL = 20;
// robots on one cell stand in a circle, and are drawn smaller
const CROWDED = 0.24;
const CROWDED_SIZE = 0.6;

class MapView extends MapTurns {
  constructor(canvas, replay) {
    super(canvas, replay);
    this.shows = { heat: false, goals: true, lines: true, roomy: false, turns: false };
    this.picked = null;
    this.follows = false;
    this.pulse = 0;
    this.other = new Int32Array(replay.robots);
    this.xs = new Float64Array(replay.robots);
    this.ys = new Float64Array(replay.robots);
    this.crowded = new Uint8Array(replay.robots);
    this.standing = new Uint16Array(replay.map.width * replay.map.height);
  }

  // The robot that is drawn nearest to a point of the canvas, if one is within that many pixels, or on the point's cell.
  robotAt(x, y, near) {
    let best = null;
    let least = Math.max(this.view.scale * 0.55, near * this.ratio);
    for (let robot = 0; robot < this.replay.robots; robot += 1) {
      const far = Math.hypot(this.xs[robot] - x, this.ys[robot] - y);
      if (far < least) [best, least] = [robot, far];
    }
    return best;
  }

  // The cells between which robots are drawn: those of this frame and of the next one, or of the one before where the
  // fraction is negative.
  placeRobots(fraction) {
    const { replay, other } = this;
    const { frame, cells } = replay.state;
    other.set(cells);
    const from = fraction < 0 ? frame : frame + 1;
    if (from <= replay.last) {
      const sign = fraction < 0 ? -1 : 1;
      for (let at = replay.moveStart[from]; at < replay.moveStart[from + 1]; at += 1) {
        other[replay.moveRobot[at]] += sign * replay.moveDelta[at];
      }
    }
    const part = Math.abs(fraction);
    if (this.follows && this.picked !== null) this.centreBetween(cells[this.picked], other[this.picked], part);
    for (let robot = 0; robot < replay.robots; robot += 1) {
      const [x, y] = this.pointOf(cells[robot]);
      const [nextX, nextY] = this.pointOf(other[robot]);
      this.xs[robot] = x + (nextX - x) * part;
      this.ys[robot] = y + (nextY - y) * part;
    }
    this.partCrowds(part < 0.5 ? cells : other);
  }

  // Only an illegal trace has two robots on one cell: they are drawn next to each other, so that each is to be seen.
  partCrowds(cells) {
    const { crowded, standing } = this;
    const crowds = new Map();
    for (const cell of cells) standing[cell] += 1;
    cells.forEach((cell, robot) => {
      crowded[robot] = standing[cell] > 1 ? 1 : 0;
      if (crowded[robot] === 1) crowds.set(cell, [...(crowds.get(cell) ?? []), robot]);
    });
    for (const cell of cells) standing[cell] = 0;
    for (const robots of crowds.values()) this.standInCircle(robots);
  }

  standInCircle(robots) {
    const far = CROWDED * this.view.scale;
    robots.forEach((robot, place) => {
      const angle = 2 * Math.PI * place / robots.length;
      this.xs[robot] -= far * Math.cos(angle);
      this.ys[robot] -= far * Math.sin(angle);
    });
  }

  radiusOf(robot) {
    const { view, ratio, crowded } = this;
    const part = view.scale < SMALL_CELL * ratio ? RADIUS_IN_SMALL_CELLS : RADIUS;
    return Math.max(view.scale * part, 2.4 * ratio) * (crowded[robot] === 1 ? CROWDED_SIZE : 1);
  }

  centreBetween(cell, other, part) {
    const { width } = this.replay.map;
    const between = (a, b) => a + (b - a) * part + 0.5;
    const [row, otherRow] = [Math.floor(cell / width), Math.floor(other / width)];
    this.middle = { x: between(cell % width, other % width), y: between(row, otherRow) };
    this.place();
  }

  draw(fraction) {
    const { picked } = this;
    this.placeRobots(fraction);
    this.drawGround(this.view.scale >= LEAST_NUMBERED * this.ratio);
    if (picked !== null) this.drawPath(picked);
    if (this.shows.lines) this.drawLines();
    this.drawRobots(fraction);
    if (this.shows.goals) this.drawGoals();
    if (this.shows.turns) this.drawTurns();
    if (picked !== null) this.drawQueue(picked);
    this.drawFaults();
  }

  // How strongly a robot is drawn: others than the picked one are dimmed.
  strengthOf(robot) {
    return this.picked === null || this.picked === robot ? 1 : 0.25;
  }

  // From each robot to its goal.
  drawLines() {
    const { pen, view, replay } = this;
    pen.lineWidth = Math.max(1, Math.min(view.scale / 14, 5 * this.ratio));
    for (let robot = 0; robot < replay.robots; robot += 1) {
      const queue = replay.state.queues[robot];
      if (queue.length === 0) continue;
      const [x, y] = this.pointOf(queue[0].cell);
      pen.strokeStyle = this.colours.robots[robot].fill;
      pen.globalAlpha = (replay.robots > 100 ? 0.25 : 0.45) * this.strengthOf(robot);
      pen.beginPath();
      pen.moveTo(this.xs[robot], this.ys[robot]);
      pen.lineTo(x, y);
      pen.stroke();
    }
    pen.globalAlpha = 1;
  }

  // A square for each robot's goal. Where several have one goal, each further square is smaller, within the one before.
  drawGoals() {
    const { pen, view, replay } = this;
    const half = Math.max(view.scale * 0.42, 2 * this.ratio);
    const line = Math.max(1.2, Math.min(view.scale / 12, 5 * this.ratio));
    pen.lineWidth = line;
    const shared = new Map();
    for (let robot = 0; robot < replay.robots; robot += 1) {
      const queue = replay.state.queues[robot];
      if (queue.length === 0) continue;
      const goal = queue[0].cell;
      const inner = shared.get(goal) ?? 0;
      shared.set(goal, inner + 1);
      const side = Math.max(half - inner * 1.6 * line, line);
      const [x, y] = this.pointOf(goal);
      pen.strokeStyle = this.colours.robots[robot].fill;
      pen.globalAlpha = this.strengthOf(robot);
      pen.strokeRect(x - side, y - side, 2 * side, 2 * side);
    }
    pen.globalAlpha = 1;
  }

  drawRobots(fraction) {
    const { pen, view, replay, colours } = this;
    const { frame, queues, shut } = replay.state;
    const numbered = view.scale >= LEAST_NUMBERED * this.ratio;
    const outlined = this.shows.heat || view.scale >= LEAST_NUMBERED * this.ratio;
    for (let robot = 0; robot < replay.robots; robot += 1) {
      const [x, y] = [this.xs[robot], this.ys[robot]];
      const radius = this.radiusOf(robot);
      const idle = queues[robot].length === 0;
      pen.globalAlpha = this.strengthOf(robot);
      pen.fillStyle = idle ? colours.idle : this.colours.robots[robot].fill;
      pen.beginPath();
      if (shut[robot]) pen.rect(x - radius * 0.88, y - radius * 0.88, radius * 1.76, radius * 1.76);
      else pen.arc(x, y, radius, 0, 2 * Math.PI);
      pen.fill();
      if (outlined) {
        pen.strokeStyle = colours.ink;
        pen.lineWidth = Math.max(1, Math.min(view.scale / 30, 2 * this.ratio));
        pen.stroke();
      }
      if (shut[robot]) this.drawBar(x, y, radius);
      if (numbered) this.drawNumber(robot, x, y, idle);
    }
    pen.globalAlpha = 1;
    this.drawRings(fraction, frame);
  }

  // Round the eldest, the picked one, and those that arrive.
  drawRings(fraction, frame) {
    const { pen, view, replay, colours } = this;
    pen.lineWidth = Math.max(1.5 * this.ratio, Math.min(view.scale / 12, 5 * this.ratio));
    const ring = (robot, colour, factor) => {
      pen.strokeStyle = colour;
      pen.beginPath();
      pen.arc(this.xs[robot], this.ys[robot], this.radiusOf(robot) * factor, 0, 2 * Math.PI);
      pen.stroke();
    };
    if (replay.eldest[frame] >= 0) ring(replay.eldest[frame], colours.ink, 1.2);
    if (this.picked !== null) ring(this.picked, colours.accent, 1.45);
    const part = Math.max(0, fraction);
    pen.globalAlpha = 1 - 0.7 * part;
    for (const robot of replay.arrivedAt(frame)) ring(robot, this.colours.robots[robot].fill, 1.4 + 0.5 * part);
    pen.globalAlpha = 1;
  }

  // The mark of a shut robot: a bar below its number.
  drawBar(x, y, radius) {
    const { pen, colours } = this;
    pen.fillStyle = colours.ink;
    pen.fillRect(x - radius * 0.88, y + radius * 0.62, radius * 1.76, radius * 0.3);
  }

  drawNumber(robot, x, y, idle) {
    const { pen, view, colours } = this;
    const small = view.scale < SMALL_CELL * this.ratio || this.crowded[robot] === 1;
    const part = (robot > 99 ? 0.34 : 0.46) + (small ? 0.08 : 0);
    const size = Math.max(view.scale * part, 5.5 * this.ratio) * (this.crowded[robot] === 1 ? CROWDED_SIZE : 1);
    pen.fillStyle = idle ? colours.digitsOnIdle : colours.robots[robot].digits;
    pen.font = `600 ${size.toFixed(1)}px system-ui, sans-serif`;
    pen.textAlign = 'center';
    pen.textBaseline = 'middle';
    pen.fillText(String(robot), x, y + view.scale * 0.02);
  }

  // Where the picked robot was, drawn whole, and where it goes, dotted.
  drawPath(robot) {
    const { pen, view, replay } = this;
    const { frame } = replay.state;
    const { cells, here } = replay.pathOf(robot, frame - PATH_FRAMES, frame + PATH_FRAMES);
    pen.strokeStyle = this.colours.robots[robot].fill;
    pen.lineJoin = 'round';
    pen.lineWidth = Math.max(2 * this.ratio, Math.min(view.scale / 6, 8 * this.ratio));
    const along = (part, dashes, alpha) => {
      pen.setLineDash(dashes);
      pen.globalAlpha = alpha;
      pen.beginPath();
      part.forEach((cell, place) => {
        const [x, y] = this.pointOf(cell);
        if (place === 0) pen.moveTo(x, y);
        else pen.lineTo(x, y);
      });
      pen.stroke();
    };
    along(cells.slice(0, here + 1), [], 0.35);
    along(cells.slice(here), [pen.lineWidth, pen.lineWidth * 1.5], 0.8);
    pen.setLineDash([]);
    pen.globalAlpha = 1;
  }

  // The errands of the picked robot after the first, numbered by their place in its queue.
  drawQueue(robot) {
    const { pen, view, replay } = this;
    const half = Math.max(view.scale * 0.3, 2 * this.ratio);
    pen.strokeStyle = this.colours.robots[robot].fill;
    pen.fillStyle = this.colours.robots[robot].fill;
    pen.lineWidth = Math.max(1, view.scale / 16);
    pen.font = `600 ${Math.max(view.scale * 0.34, 9 * this.ratio).toFixed(1)}px system-ui, sans-serif`;
    pen.textAlign = 'center';
    pen.textBaseline = 'middle';
    replay.state.queues[robot].slice(1).forEach((errand, place) => {
      const [x, y] = this.pointOf(errand.cell);
      pen.setLineDash([3 * this.ratio, 2 * this.ratio]);
      pen.strokeRect(x - half, y - half, 2 * half, 2 * half);
      pen.setLineDash([]);
      pen.fillText(String(place + 2), x, y - half - 5 * this.ratio);
    });
  }

  // The cells and robots of what is wrong at this frame.
  drawFaults() {
    const { pen, view, replay, colours } = this;
    pen.strokeStyle = colours.fault;
    pen.fillStyle = colours.fault;
    pen.lineWidth = Math.max(3 * this.ratio, Math.min(view.scale / 8, 8 * this.ratio));
    const half = Math.max(view.scale * (0.5 + 0.12 * this.pulse), 7 * this.ratio);
    for (const fault of replay.faultsAt(replay.state.frame)) {
      for (const cell of [...fault.cells, ...fault.robots.map((robot) => replay.state.cells[robot])]) {
        if (cell === undefined) continue;
        const [x, y] = this.pointOf(cell);
        pen.globalAlpha = 0.25 * this.pulse;
        pen.fillRect(x - half, y - half, 2 * half, 2 * half);
        pen.globalAlpha = 1;
        pen.strokeRect(x - half, y - half, 2 * half, 2 * half);
      }
    }
  }
}
