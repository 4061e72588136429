// ---- where the map lies on its canvas

// the greatest width of a cell in pixels, and how far even a small map may be zoomed
const MOST_CELL = 120;
const LEAST_MOST_ZOOM = 4;
// the least height of the map, and the margins below it, in pixels
const LEAST_HIGH = 240;
const BELOW = 48;

class MapPlace {
  constructor(canvas, map) {
    this.canvas = canvas;
    this.map = map;
    // the zoom, 1 where the whole map is shown, and the place of the map that is in the middle, in cells
    this.zoom = 1;
    this.middle = { x: map.width / 2, y: map.height / 2 };
    this.leastHigh = LEAST_HIGH;
  }

  // How far down on the page the map begins.
  above() {
    return this.canvas.getBoundingClientRect().top + window.scrollY;
  }

  // How high the map may be: with its slider in the window; in one column it leaves room for what is told below it.
  room() {
    const isOneColumn = matchMedia('(max-width: 900px)').matches;
    const below = isOneColumn ? window.innerHeight * 0.25 : element('time').offsetHeight + BELOW;
    return Math.max(LEAST_HIGH, window.innerHeight - this.above() - below);
  }

  // The map is as high as it can be. Zoom and middle stay.
  resize() {
    const { height, width } = this.map;
    const room = this.canvas.clientWidth;
    const high = Math.max(this.leastHigh, Math.min(room * height / width, this.room()));
    this.ratio = window.devicePixelRatio || 1;
    this.canvas.style.height = `${high}px`;
    this.canvas.width = Math.round(room * this.ratio);
    this.canvas.height = Math.round(high * this.ratio);
    this.fitScale = Math.min(this.canvas.width / width, this.canvas.height / height);
    this.place();
  }

  // Where the map lies on the canvas. It cannot leave it: a side that is shown whole is centred.
  place() {
    const { height, width } = this.map;
    const { canvas, middle } = this;
    this.zoom = this.zoomWithin(this.zoom);
    const scale = this.fitScale * this.zoom;
    const within = (place, side, room) => {
      const half = room / scale / 2;
      return half >= side / 2 ? side / 2 : Math.min(Math.max(place, half), side - half);
    };
    middle.x = within(middle.x, width, canvas.width);
    middle.y = within(middle.y, height, canvas.height);
    this.view = { scale, left: canvas.width / 2 - middle.x * scale, top: canvas.height / 2 - middle.y * scale };
    // one finger scrolls the page while the whole map is shown, and moves the map when it is zoomed
    canvas.style.touchAction = this.zoom > 1 ? 'none' : 'pan-x pan-y';
  }

  show(zoom, middle) {
    this.zoom = zoom;
    this.middle = { ...middle };
    this.place();
  }

  zoomWithin(zoom) {
    return Math.min(Math.max(zoom, 1), Math.max(LEAST_MOST_ZOOM, MOST_CELL * this.ratio / this.fitScale));
  }

  fit() {
    this.zoom = 1;
    this.place();
  }

  // The point x, y of the canvas stays where it is.
  zoomAt(factor, x, y) {
    const { view } = this;
    const [column, row] = [(x - view.left) / view.scale, (y - view.top) / view.scale];
    this.zoom = this.zoomWithin(this.zoom * factor);
    const scale = this.fitScale * this.zoom;
    this.middle.x = column + (this.canvas.width / 2 - x) / scale;
    this.middle.y = row + (this.canvas.height / 2 - y) / scale;
    this.place();
  }

  drag(x, y) {
    this.middle.x -= x / this.view.scale;
    this.middle.y -= y / this.view.scale;
    this.place();
  }

  // Moves the view by parts of what is shown.
  pan(right, down) {
    this.drag(-right * this.canvas.width, -down * this.canvas.height);
  }

  cellAt(x, y) {
    const { height, width } = this.map;
    const column = Math.floor((x - this.view.left) / this.view.scale);
    const row = Math.floor((y - this.view.top) / this.view.scale);
    return column >= 0 && column < width && row >= 0 && row < height ? row * width + column : -1;
  }

  centre(cell) {
    const { width } = this.map;
    this.middle = { x: cell % width + 0.5, y: Math.floor(cell / width) + 0.5 };
    this.place();
  }

  // The middle of a cell on the canvas.
  pointOf(cell) {
    const { width } = this.map;
    const { view } = this;
    return [view.left + (cell % width + 0.5) * view.scale, view.top + (Math.floor(cell / width) + 0.5) * view.scale];
  }
}
