// ---- thousands of robots at once

// Discs in a picture of the canvas's size, which is written to the canvas as a whole: to draw each of them costs too much.
class Stamps {
  constructor(view) {
    this.view = view;
    this.canvas = document.createElement('canvas');
    this.pen = this.canvas.getContext('2d', { willReadFrequently: true });
  }

  // The map without robots as pixels, anew where the view or its colours have changed.
  readGround() {
    const { canvas, pen, view } = this;
    const { scale, left, top } = view.view;
    const key = `${scale} ${left} ${top} ${view.canvas.width} ${view.canvas.height}`;
    if (this.key === key && this.colours === view.colours) return;
    [this.key, this.colours] = [key, view.colours];
    canvas.width = view.canvas.width;
    canvas.height = view.canvas.height;
    const own = view.pen;
    view.pen = pen;
    view.drawGround(false);
    view.pen = own;
    const { width, height } = canvas;
    this.ground = new Uint32Array(pen.getImageData(0, 0, width, height).data.buffer);
    this.picture = pen.createImageData(width, height);
    this.pixels = new Uint32Array(this.picture.data.buffer);
    this.colourPixels = this.pixelsOf([...view.hues.map((hue) => hue.fill), view.colours.idle]);
    this.spans = this.spansOf(scale);
  }

  pixelsOf(colours) {
    const { pen } = this;
    colours.forEach((colour, place) => {
      pen.fillStyle = colour;
      pen.fillRect(place, 0, 1, 1);
    });
    return new Uint32Array(pen.getImageData(0, 0, colours.length, 1).data.buffer);
  }

  // For each row of a disc, from the middle, how far it reaches to both sides; a square where discs would be too small.
  spansOf(scale) {
    const { ratio } = this.view;
    const radius = Math.max(scale * (scale < LEAST_DISC * ratio ? 0.5 : 0.44), ratio);
    const high = Math.max(1, Math.floor(radius));
    const rows = Array.from({ length: 2 * high }, (_, row) => row - high);
    if (scale < LEAST_DISC * ratio) return rows.map((row) => [row, high]);
    return rows.map((row) => [row, Math.round(Math.sqrt(Math.max(0, radius * radius - (row + 0.5) * (row + 0.5))))]);
  }

  draw() {
    this.readGround();
    const { view, pixels, colourPixels } = this;
    const { run, xs, ys } = view;
    pixels.set(this.ground);
    for (let robot = 0; robot < run.robots; robot += 1) {
      // of a robot that is nowhere the place is no number
      if (!view.isOnCanvas(xs[robot], ys[robot])) continue;
      this.stamp(Math.round(xs[robot]), Math.round(ys[robot]), colourPixels[run.isIdle(robot) ? HUES : robot % HUES]);
    }
    view.pen.putImageData(this.picture, 0, 0);
  }

  stamp(x, y, colour) {
    const { pixels, spans } = this;
    const { width, height } = this.canvas;
    for (const [row, reach] of spans) {
      const line = y + row;
      if (line < 0 || line >= height) continue;
      const end = line * width + Math.min(width, x + reach);
      for (let at = line * width + Math.max(0, x - reach); at < end; at += 1) pixels[at] = colour;
    }
  }
}
