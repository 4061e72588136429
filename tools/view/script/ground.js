// ---- what lies under the robots: heat, bridges and cells that are not roomy

const ROOMY_STRENGTH = 0.3;
// a bridge's line, in cells
const BRIDGE_WIDTH = 0.14;

class MapGround extends MapFloor {
  constructor(canvas, replay) {
    super(canvas, replay.map);
    this.replay = replay;
    this.heat = new Heat(replay);
  }

  paintLetters(colours) {
    super.paintLetters(colours);
    this.heatCanvas = this.cellCanvas();
    this.heatPixels = this.heatCanvas.getContext('2d').createImageData(this.map.width, this.map.height);
    this.shades = shadesOf(colours.heat);
    this.paintedHeat = undefined;
  }

  drawOnFloor() {
    if (this.shows.heat) this.drawHeat();
    if (this.shows.roomy) this.drawRoomy();
  }

  // Once, when it is first asked for.
  findRoominess() {
    this.roominess ??= new Roominess(this.map, this.replay.robots);
    return this.roominess;
  }

  // The cells that are not roomy for the robots, and the bridges, each as a line between its two cells.
  drawRoomy() {
    const { pen, view, colours } = this;
    const { bridges, unroomy } = this.findRoominess();
    if (this.paintedRoomy !== colours) this.paintRoomy(unroomy);
    this.paintedRoomy = colours;
    pen.globalAlpha = ROOMY_STRENGTH;
    this.drawCells(this.roomyCanvas);
    pen.globalAlpha = 1;
    pen.strokeStyle = colours.fault;
    pen.lineWidth = Math.max(1, view.scale * BRIDGE_WIDTH);
    pen.beginPath();
    for (const [lower, upper] of bridges) {
      pen.moveTo(...this.pointOf(lower));
      pen.lineTo(...this.pointOf(upper));
    }
    pen.stroke();
  }

  paintRoomy(unroomy) {
    this.roomyCanvas = this.cellCanvas();
    const pen = this.roomyCanvas.getContext('2d');
    pen.fillStyle = this.colours.fault;
    unroomy.forEach((is, cell) => {
      if (is) pen.fillRect(cell % this.map.width, Math.floor(cell / this.map.width), 1, 1);
    });
  }

  drawHeat() {
    const { heat } = this;
    heat.follow();
    const painted = `${heat.kind} ${heat.window} ${heat.frame}`;
    if (this.paintedHeat !== painted) this.paintHeat();
    this.paintedHeat = painted;
    this.drawCells(this.heatCanvas);
  }

  // From frame to frame only cells whose count changed are painted, unless the greatest count, which is the scale, did.
  paintHeat() {
    const { heat } = this;
    const pixels = new Uint32Array(this.heatPixels.data.buffer);
    const most = Math.max(1, heat.most);
    const shades = Uint32Array.from({ length: most + 1 }, (_, count) => this.shades[Math.ceil(255 * Math.sqrt(count / most))]);
    if (heat.changed === null || this.mostHeat !== heat.most || this.paintedHeat === undefined) {
      for (let cell = 0; cell < pixels.length; cell += 1) pixels[cell] = shades[heat.counts[cell]];
    } else {
      for (const cell of heat.changed) pixels[cell] = shades[heat.counts[cell]];
    }
    heat.changed = [];
    this.mostHeat = heat.most;
    this.heatCanvas.getContext('2d').putImageData(this.heatPixels, 0, 0);
  }
}
