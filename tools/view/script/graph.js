// ---- the map as a graph

// Calls `reach` with each neighbour of the cell that is on the map and floor.
function eachNeighbour(map, cell, reach) {
  const { width, floor } = map;
  const column = cell % width;
  if (cell >= width && floor[cell - width]) reach(cell - width);
  if (cell + width < floor.length && floor[cell + width]) reach(cell + width);
  if (column > 0 && floor[cell - 1]) reach(cell - 1);
  if (column + 1 < width && floor[cell + 1]) reach(cell + 1);
}

function countFloor(map) {
  return map.floor.reduce((count, floor) => count + floor, 0);
}

// Distances from one cell. The arrays are kept from search to search: `seen` says in which search a cell was reached.
class Distances {
  constructor(map) {
    this.map = map;
    this.search = 0;
    this.seen = new Int32Array(map.floor.length);
    this.far = new Int32Array(map.floor.length);
    this.queue = new Int32Array(map.floor.length);
  }

  // Searches from this cell, and returns the greatest distance.
  from(start) {
    const { map, seen, far, queue } = this;
    this.search += 1;
    const { search } = this;
    let head = 0;
    let tail = 0;
    if (map.floor[start]) {
      queue[0] = start;
      tail = 1;
      seen[start] = search;
      far[start] = 0;
    }
    while (head < tail) {
      const cell = queue[head];
      head += 1;
      const next = far[cell] + 1;
      eachNeighbour(map, cell, (other) => {
        if (seen[other] === search) return;
        seen[other] = search;
        far[other] = next;
        queue[tail] = other;
        tail += 1;
      });
    }
    return tail === 0 ? 0 : far[queue[tail - 1]];
  }

  // The distance of a cell from where the last search began; -1 if no walk joins them.
  of(cell) {
    return this.seen[cell] === this.search ? this.far[cell] : -1;
  }
}

// Whether some edge of the floor lies on no round: a search in depth with the lowest place that each cell's branch
// reaches.
function hasBridge(map) {
  const { width, floor } = map;
  const size = floor.length;
  const order = new Int32Array(size);
  const low = new Int32Array(size);
  const parent = new Int32Array(size).fill(-1);
  const tried = new Uint8Array(size);
  let count = 0;
  const neighbour = (cell, way) => {
    if (way === 0) return cell >= width ? cell - width : -1;
    if (way === 1) return cell + width < size ? cell + width : -1;
    if (way === 2) return cell % width > 0 ? cell - 1 : -1;
    return cell % width + 1 < width ? cell + 1 : -1;
  };
  for (let root = 0; root < size; root += 1) {
    if (!floor[root] || order[root] > 0) continue;
    let cell = root;
    count += 1;
    order[cell] = low[cell] = count;
    while (cell >= 0) {
      if (tried[cell] < 4) {
        const other = neighbour(cell, tried[cell]);
        tried[cell] += 1;
        if (other < 0 || !floor[other] || other === parent[cell]) continue;
        if (order[other] > 0) {
          low[cell] = Math.min(low[cell], order[other]);
        } else {
          parent[other] = cell;
          count += 1;
          order[other] = low[other] = count;
          cell = other;
        }
      } else {
        const above = parent[cell];
        if (above >= 0) {
          if (low[cell] > order[above]) return true;
          low[above] = Math.min(low[above], low[cell]);
        }
        cell = above;
      }
    }
  }
  return false;
}
