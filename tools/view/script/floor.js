// ---- the map without what is on it

class MapFloor extends MapPlace {
  constructor(canvas, map) {
    super(canvas, map);
    this.pen = canvas.getContext('2d');
  }

  // A canvas of one pixel a cell, which is drawn larger.
  cellCanvas() {
    const canvas = document.createElement('canvas');
    canvas.width = this.map.width;
    canvas.height = this.map.height;
    return canvas;
  }

  paintLetters(colours) {
    const { height, width, letters, floor } = this.map;
    this.colours = colours;
    this.ground = this.cellCanvas();
    const pen = this.ground.getContext('2d');
    pen.fillStyle = colours.floor;
    pen.fillRect(0, 0, width, height);
    for (let cell = 0; cell < floor.length; cell += 1) {
      if (floor[cell]) continue;
      pen.fillStyle = letters[cell] === 'T' || letters[cell] === 'W' ? colours.shelf : colours.wall;
      pen.fillRect(cell % width, Math.floor(cell / width), 1, 1);
    }
  }

  drawCells(canvas) {
    const { view, map } = this;
    this.pen.drawImage(canvas, view.left, view.top, map.width * view.scale, map.height * view.scale);
  }

  // What an extension draws between the floor and the lines of the map.
  drawOnFloor() {}

  drawGround(numbered) {
    const { pen, view, map, colours, canvas } = this;
    pen.setTransform(1, 0, 0, 1, 0, 0);
    pen.globalAlpha = 1;
    pen.fillStyle = colours.card;
    pen.fillRect(0, 0, canvas.width, canvas.height);
    pen.imageSmoothingEnabled = false;
    this.drawCells(this.ground);
    this.drawOnFloor();
    pen.strokeStyle = colours.line;
    pen.lineWidth = 1;
    pen.strokeRect(view.left, view.top, map.width * view.scale, map.height * view.scale);
    if (numbered) this.drawGrid();
  }

  drawGrid() {
    const { pen, view, colours } = this;
    const { height, width } = this.map;
    pen.strokeStyle = colours.grid;
    pen.lineWidth = 1;
    pen.beginPath();
    for (let column = 0; column <= width; column += 1) {
      const x = Math.round(view.left + column * view.scale) + 0.5;
      pen.moveTo(x, view.top);
      pen.lineTo(x, view.top + height * view.scale);
    }
    for (let row = 0; row <= height; row += 1) {
      const y = Math.round(view.top + row * view.scale) + 0.5;
      pen.moveTo(view.left, y);
      pen.lineTo(view.left + width * view.scale, y);
    }
    pen.stroke();
  }
}
