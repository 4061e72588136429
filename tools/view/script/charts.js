// ---- charts

const WINDOW = 100;

// How many robots arrived in the last ticks, by frame.
function recentArrivals(arrivals) {
  return arrivals.map((count, frame) => count - arrivals[Math.max(0, frame - WINDOW)]);
}

// A chart tells the value of the frame under the pointer, and goes to it at a click.
class Chart {
  constructor(canvas, values, name) {
    this.canvas = canvas;
    this.values = values;
    this.name = name;
    this.limit = null;
    this.most = 1;
    for (const value of values) if (value > this.most) this.most = value;
  }

  // A line at the greatest value that is possible, if it is near enough to be drawn.
  setLimit(limit) {
    this.limit = limit !== null && limit <= 4 * this.most ? limit : null;
    if (this.limit !== null) this.most = Math.max(this.most, limit);
  }

  // The line, drawn once for its size and colours: by column the greatest value.
  paint(colours, ratio) {
    const { canvas, values } = this;
    this.ratio = ratio;
    this.colours = colours;
    canvas.width = Math.max(1, Math.round(canvas.clientWidth * ratio));
    canvas.height = Math.max(1, Math.round(canvas.clientHeight * ratio));
    this.line = document.createElement('canvas');
    this.line.width = canvas.width;
    this.line.height = canvas.height;
    const pen = this.line.getContext('2d');
    pen.strokeStyle = colours.line;
    pen.lineWidth = 1;
    pen.strokeRect(this.xOf(0), 0.5, canvas.width - this.xOf(0) - 1, this.yOf(0));
    if (this.limit !== null) {
      pen.strokeStyle = colours.mark;
      pen.setLineDash([4 * ratio, 3 * ratio]);
      pen.strokeRect(this.xOf(0), this.yOf(this.limit), canvas.width - this.xOf(0), 0);
      pen.setLineDash([]);
    }
    this.paintValues(pen);
    pen.fillStyle = colours.soft;
    pen.font = `${11 * ratio}px system-ui, sans-serif`;
    pen.textAlign = 'right';
    pen.fillText(String(this.most), 46 * ratio, 12 * ratio);
    pen.fillText('0', 46 * ratio, this.yOf(0));
    this.labelEnds(pen);
  }

  paintValues(pen) {
    const { values } = this;
    pen.strokeStyle = this.colours.accent;
    pen.lineWidth = 1.6 * this.ratio;
    pen.lineJoin = 'round';
    pen.beginPath();
    const columns = Math.min(values.length, this.canvas.width - Math.round(50 * this.ratio));
    for (let column = 0; column < columns; column += 1) {
      const from = Math.floor(column * values.length / columns);
      const to = Math.max(from + 1, Math.floor((column + 1) * values.length / columns));
      let most = 0;
      for (let at = from; at < to; at += 1) most = Math.max(most, values[at]);
      const y = this.yOf(most);
      if (column === 0) pen.moveTo(this.xOf(from), y);
      else pen.lineTo(this.xOf(from), y);
    }
    pen.stroke();
  }

  // The first and the last tick under the line.
  labelEnds(pen) {
    if (this.ends === undefined) return;
    pen.textAlign = 'left';
    pen.fillText(this.ends[0], this.xOf(0), this.canvas.height - 2 * this.ratio);
    pen.textAlign = 'right';
    pen.fillText(this.ends[1], this.canvas.width - 2, this.canvas.height - 2 * this.ratio);
  }

  xOf(at) {
    const left = 50 * this.ratio;
    return left + at / Math.max(1, this.values.length - 1) * (this.canvas.width - left - 2);
  }

  yOf(value) {
    const low = this.canvas.height - 14 * this.ratio;
    return low - value / this.most * (low - 3);
  }

  // The frame at a place of the page.
  frameAt(clientX) {
    const left = 50 * this.ratio;
    const x = (clientX - this.canvas.getBoundingClientRect().left) * this.ratio;
    const frame = Math.round((x - left) / Math.max(1, this.canvas.width - left - 2) * (this.values.length - 1));
    return Math.min(Math.max(frame, 0), this.values.length - 1);
  }

  draw(frame) {
    const pen = this.canvas.getContext('2d');
    pen.clearRect(0, 0, this.canvas.width, this.canvas.height);
    pen.drawImage(this.line, 0, 0);
    pen.strokeStyle = this.colours.mark;
    pen.lineWidth = this.ratio;
    pen.beginPath();
    pen.moveTo(this.xOf(frame), 0);
    pen.lineTo(this.xOf(frame), this.yOf(0));
    pen.stroke();
  }
}
