// ---- the order of a step on the map: where robots go, who pushes whom, and whose turn it is

// the width of a cell from which on a robot's turn is written, in pixels
const LEAST_TURN = 26;

class MapTurns extends MapGround {
  // An arrow from one point to another.
  drawArrow(x, y, toX, toY, head) {
    const { pen } = this;
    const angle = Math.atan2(toY - y, toX - x);
    pen.beginPath();
    pen.moveTo(x, y);
    pen.lineTo(toX, toY);
    for (const side of [-0.5, 0.5]) {
      pen.moveTo(toX, toY);
      pen.lineTo(toX - head * Math.cos(angle + side), toY - head * Math.sin(angle + side));
    }
    pen.stroke();
  }

  // Lines from robots to their next cells, and arrows from robots to those that they push.
  drawSteps({ next, pushedBy }) {
    const { pen, view, colours, ratio, xs, ys } = this;
    if (next === null) return;
    const wide = Math.max(1.5 * ratio, Math.min(view.scale / 12, 5 * ratio));
    pen.lineCap = 'round';
    const pushers = new Set(pushedBy);
    pushedBy.forEach((pusher, robot) => {
      if (next[robot] === this.replay.state.cells[robot] || pushers.has(robot)) return;
      const [x, y] = this.pointOf(next[robot]);
      pen.strokeStyle = colours.ink;
      pen.lineWidth = wide;
      this.drawArrow(xs[robot], ys[robot], xs[robot] + (x - xs[robot]) * 0.85, ys[robot] + (y - ys[robot]) * 0.85, view.scale * 0.16);
    });
    pushedBy.forEach((pusher, robot) => {
      if (pusher < 0) return;
      pen.strokeStyle = colours.mark;
      pen.lineWidth = wide * 1.5;
      const [fromX, fromY] = [xs[pusher], ys[pusher]];
      this.drawArrow(fromX, fromY, fromX + (xs[robot] - fromX) * 0.8, fromY + (ys[robot] - fromY) * 0.8, view.scale * 0.24);
    });
    pen.lineCap = 'butt';
  }

  // The turn of each robot, above it.
  drawTurns() {
    const { pen, view, colours, ratio, replay } = this;
    const step = replay.turnsNow();
    this.drawSteps(step);
    if (view.scale < LEAST_TURN * ratio) return;
    const size = Math.min(view.scale * 0.24, 18 * ratio);
    pen.font = `600 ${size.toFixed(1)}px system-ui, sans-serif`;
    pen.textAlign = 'left';
    pen.textBaseline = 'top';
    step.turns.forEach((turn, robot) => {
      const [left, top] = [this.xs[robot] - view.scale * 0.47, this.ys[robot] - view.scale * 0.47];
      const text = `${turn}.`;
      pen.fillStyle = colours.card;
      pen.fillRect(left, top, pen.measureText(text).width + 4 * ratio, size + 3 * ratio);
      pen.fillStyle = colours.ink;
      pen.fillText(text, left + 2 * ratio, top + 2 * ratio);
    });
  }
}
