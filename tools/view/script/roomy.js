// ---- bridges, and the cells that are not roomy

// An edge is a bridge if every walk between its ends crosses it. Each of its ends, with the cells that walks join to that
// end without crossing the bridge, is a side. A cell is roomy for `robots` if each side that it is on has as many cells.
class Roominess {
  constructor(map, robots) {
    this.map = map;
    this.robots = robots;
    const cells = map.floor.length;
    // each cell's place in the order of a search in depth, from 1; the least place that an edge outside the search's tree
    // reaches from the cell or below it; and how many cells are below it, itself with them
    this.place = new Int32Array(cells);
    this.least = new Int32Array(cells);
    this.below = new Int32Array(cells);
    this.parent = new Int32Array(cells).fill(-1);
    this.order = new Int32Array(cells);
    this.bridges = [];
    this.unroomy = new Uint8Array(cells);
    let placed = 0;
    for (let cell = 0; cell < cells; cell += 1) {
      if (map.floor[cell] && this.place[cell] === 0) placed = this.addPart(cell, placed);
    }
    this.bridges.sort((a, b) => a[0] - b[0] || a[1] - b[1]);
  }

  // Searches the part of the map that has a cell, and returns how many cells are placed then.
  addPart(first, before) {
    const { map, place, parent, order } = this;
    let placed = before;
    const enter = (cell) => {
      order[placed] = cell;
      placed += 1;
      place[cell] = placed;
    };
    enter(first);
    for (let cell = first; cell !== -1;) {
      let next = -1;
      eachNeighbour(map, cell, (other) => { if (place[other] === 0) next = other; });
      if (next === -1) {
        cell = parent[cell];
      } else {
        parent[next] = cell;
        enter(next);
        cell = next;
      }
    }
    this.measure(before, placed);
    this.mark(before, placed);
    return placed;
  }

  // From the last cell to the first: what lies below a cell is known before the cell.
  measure(from, to) {
    const { map, place, least, below, parent, order } = this;
    for (let at = to - 1; at >= from; at -= 1) {
      const cell = order[at];
      least[cell] = place[cell];
      below[cell] = 1;
      eachNeighbour(map, cell, (other) => {
        if (parent[other] === cell) {
          least[cell] = Math.min(least[cell], least[other]);
          below[cell] += below[other];
        } else if (parent[cell] !== other) {
          least[cell] = Math.min(least[cell], place[other]);
        }
      });
    }
  }

  // The cells below another one are a range of the order, so that a side is a range or all but one. `more` has at each place by how many
  // sides that are too small it differs from the place before.
  mark(from, to) {
    const { place, least, below, parent, order, robots } = this;
    const more = new Int32Array(to - from + 1);
    const add = (begin, end) => {
      more[begin] += 1;
      more[end] -= 1;
    };
    for (let at = from + 1; at < to; at += 1) {
      const cell = order[at];
      if (least[cell] !== place[cell]) continue;
      this.bridges.push([Math.min(cell, parent[cell]), Math.max(cell, parent[cell])]);
      const [begin, end] = [at - from, at - from + below[cell]];
      if (below[cell] < robots) add(begin, end);
      if (to - from - below[cell] < robots) {
        add(0, begin);
        add(end, to - from);
      }
    }
    let small = 0;
    for (let at = from; at < to; at += 1) {
      small += more[at - from];
      if (small > 0) this.unroomy[order[at]] = 1;
    }
  }
}
