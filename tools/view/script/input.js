// ---- keys, pointers and controls

const PAN = 0.2;
const ZOOM = 1.5;
// how far a pointer may move, in pixels, and still be a click
const CLICK = 6;
// how near to a robot, in pixels, a click or a tap picks it
const NEAR_POINTER = 10;
const NEAR_FINGER = 16;

function keysOf(page) {
  const toggle = (name) => () => page.show(name, !page.view.shows[name]);
  return {
    ' ': () => page.player.toggle(),
    ArrowRight: (far) => page.player.step(far),
    ArrowLeft: (far) => page.player.step(-far),
    Home: () => page.player.jump(0),
    End: () => page.player.jump(page.replay.last),
    n: () => page.player.stepToEvent(1),
    b: () => page.player.stepToEvent(-1),
    '<': () => page.player.changeSpeed(-1),
    '>': () => page.player.changeSpeed(1),
    '+': () => page.zoomBy(ZOOM),
    '=': () => page.zoomBy(ZOOM),
    '-': () => page.zoomBy(1 / ZOOM),
    0: () => page.showAll(),
    w: () => page.pan(0, -PAN),
    s: () => page.pan(0, PAN),
    a: () => page.pan(-PAN, 0),
    d: () => page.pan(PAN, 0),
    c: () => page.tellMiddle(),
    '[': () => page.pickNext(-1),
    ']': () => page.pickNext(1),
    Escape: () => page.pick(null),
    f: () => {
      page.follow(!page.view.follows);
      page.draw();
    },
    h: toggle('heat'),
    g: toggle('goals'),
    l: toggle('lines'),
    r: toggle('roomy'),
    p: toggle('turns'),
    j: () => {
      page.chooseHeat('stood', 100);
      page.draw();
    },
    y: () => page.address.copy(),
    '?': () => element('help').showModal(),
  };
}

function listenToKeys(keys) {
  window.addEventListener('keydown', (event) => {
    // on many keyboards [ and ] are typed with AltGr or Option
    const typed = event.key === '[' || event.key === ']';
    if (event.metaKey || ((event.ctrlKey || event.altKey) && !typed) || document.querySelector('dialog[open]') !== null) return;
    const key = keys[event.key] ?? keys[event.key.toLowerCase()];
    if (key === undefined) return;
    // a button or a box that has the focus keeps the space bar
    const own = event.target instanceof Element ? event.target.closest('button, select, input[type="checkbox"]') : null;
    if (own !== null && event.key === ' ') return;
    // and a menu its arrows and letters
    if (own instanceof HTMLSelectElement) return;
    event.preventDefault();
    key(event.shiftKey ? 10 : 1);
  });
}

// After a click on a control the keys are those of the map again. Who comes to a control by the tabulator key stays.
function returnFocus() {
  let byPointer = false;
  window.addEventListener('pointerdown', () => { byPointer = true; }, true);
  window.addEventListener('keydown', () => { byPointer = false; }, true);
  for (const name of ['click', 'change']) {
    window.addEventListener(name, () => {
      if (byPointer && document.querySelector('dialog[open]') === null) document.querySelector('canvas').focus({ preventScroll: true });
    });
  }
}

function listenToControls(page) {
  const clicks = {
    play: () => page.player.toggle(),
    back: () => page.player.step(-1),
    on: () => page.player.step(1),
    slower: () => page.player.changeSpeed(-1),
    faster: () => page.player.changeSpeed(1),
    'zoom-in': () => page.zoomBy(ZOOM),
    'zoom-out': () => page.zoomBy(1 / ZOOM),
    'zoom-fit': () => page.showAll(),
    unpick: () => page.pick(null),
    'copy-link': () => page.address.copy(),
    'save-picture': () => page.savePicture(),
    'show-help': () => element('help').showModal(),
  };
  for (const [name, click] of Object.entries(clicks)) element(name).addEventListener('click', click);
  element('slider').addEventListener('input', (event) => page.player.jump(Number(event.target.value)));
  for (const name of SHOWN) {
    element(`show-${name}`).addEventListener('change', (event) => page.show(name, event.target.checked));
  }
  for (const name of ['heat-kind', 'heat-window']) {
    element(name).addEventListener('change', () => {
      page.chooseHeat(element('heat-kind').value, Number(element('heat-window').value));
      page.draw();
    });
  }
  element('follow').addEventListener('change', (event) => {
    page.follow(event.target.checked);
    page.draw();
  });
  element('robots').addEventListener('click', (event) => {
    const row = event.target.closest('tr');
    if (row === null) return;
    const robot = Number(row.dataset.robot);
    page.pick(page.view.picked === robot ? null : robot);
  });
}

// One pointer moves the map, or picks a robot if it does not move; two zoom it.
class MapPointers {
  constructor(page, canvas) {
    this.page = page;
    this.canvas = canvas;
    this.held = new Map();
    this.moved = false;
    canvas.addEventListener('wheel', (event) => this.wheel(event), { passive: false });
    canvas.addEventListener('pointerdown', (event) => this.down(event));
    canvas.addEventListener('pointermove', (event) => this.move(event));
    canvas.addEventListener('pointerup', (event) => this.up(event, true));
    canvas.addEventListener('pointercancel', (event) => this.up(event, false));
    canvas.addEventListener('pointerleave', () => this.hover(null));
  }

  place(event) {
    const box = this.canvas.getBoundingClientRect();
    const { ratio } = this.page.view;
    return [(event.clientX - box.left) * ratio, (event.clientY - box.top) * ratio];
  }

  hover(place) {
    this.page.hovered = place;
    this.page.tellHovered();
  }

  wheel(event) {
    event.preventDefault();
    this.page.view.zoomAt(Math.exp(-event.deltaY / 400), ...this.place(event));
    this.page.draw();
  }

  down(event) {
    this.held.set(event.pointerId, this.place(event));
    this.moved = this.held.size > 1;
    this.start = this.place(event);
    this.canvas.setPointerCapture(event.pointerId);
    this.canvas.classList.add('held');
  }

  move(event) {
    const now = this.place(event);
    if (event.pointerType !== 'touch') this.hover(now);
    const before = this.held.get(event.pointerId);
    if (before === undefined) return;
    if (this.held.size === 1) this.drag(before, now);
    else this.pinch(event.pointerId, before, now);
    this.held.set(event.pointerId, now);
  }

  drag(before, now) {
    const far = Math.hypot(now[0] - this.start[0], now[1] - this.start[1]);
    if (!this.moved && far < CLICK * this.page.view.ratio) return;
    if (!this.moved) this.page.follow(false);
    const from = this.moved ? before : this.start;
    this.moved = true;
    this.page.view.drag(now[0] - from[0], now[1] - from[1]);
    this.page.draw();
  }

  // The other pointer stays where it is.
  pinch(id, before, now) {
    const other = [...this.held].find(([one]) => one !== id)[1];
    const apart = (place) => Math.max(1, Math.hypot(place[0] - other[0], place[1] - other[1]));
    const middle = [(now[0] + other[0]) / 2, (now[1] + other[1]) / 2];
    this.page.view.drag((now[0] - before[0]) / 2, (now[1] - before[1]) / 2);
    this.page.view.zoomAt(apart(now) / apart(before), ...middle);
    this.page.draw();
  }

  up(event, ended) {
    const place = this.held.get(event.pointerId);
    this.held.delete(event.pointerId);
    if (this.held.size > 0) return;
    this.canvas.classList.remove('held');
    if (!ended || place === undefined || this.moved) return;
    const near = event.pointerType === 'mouse' ? NEAR_POINTER : NEAR_FINGER;
    const robot = this.page.view.robotAt(...this.place(event), near);
    this.page.pick(robot === this.page.view.picked ? null : robot);
  }
}

// A click on a chart goes to its frame; the pointer tells its value.
function listenToCharts(page) {
  for (const chart of page.charts) {
    const { canvas } = chart;
    const told = canvas.parentElement.querySelector('.told');
    canvas.addEventListener('click', (event) => page.player.jump(chart.frameAt(event.clientX)));
    canvas.addEventListener('pointermove', (event) => {
      const frame = chart.frameAt(event.clientX);
      told.textContent = `tick ${page.replay.clockAt(frame)}: ${Math.max(0, chart.values[frame])}`;
    });
    canvas.addEventListener('pointerleave', () => { told.textContent = ''; });
  }
}

function listen(page) {
  listenToKeys(keysOf(page));
  listenToControls(page);
  listenToCharts(page);
  returnFocus();
  page.pointers = new MapPointers(page, element('map'));
  window.addEventListener('resize', () => page.repaint());
  window.addEventListener('hashchange', (event) => page.address.read(new URL(event.newURL).hash));
  document.addEventListener('visibilitychange', () => { page.player.then = performance.now(); });
  matchMedia('(prefers-color-scheme: dark)').addEventListener('change', () => page.repaint());
}
