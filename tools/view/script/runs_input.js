// ---- keys and controls of the page of runs

function runKeysOf(page) {
  const toggle = (name) => () => page.show(name, !page.views[0].shows[name]);
  return {
    ' ': () => page.player.toggle(),
    ArrowRight: (far) => page.player.step(far),
    ArrowLeft: (far) => page.player.step(-far),
    Home: () => page.player.jump(0),
    End: () => page.player.jump(page.replay.last),
    n: () => page.stepToConflict(1),
    b: () => page.stepToConflict(-1),
    '<': () => page.player.changeSpeed(-1),
    '>': () => page.player.changeSpeed(1),
    '+': () => page.zoomBy(ZOOM),
    '=': () => page.zoomBy(ZOOM),
    '-': () => page.zoomBy(1 / ZOOM),
    0: () => page.showAll(),
    w: () => page.pan(0, -PAN),
    s: () => page.pan(0, PAN),
    a: () => page.pan(-PAN, 0),
    d: () => page.pan(PAN, 0),
    '[': () => page.pickNext(-1),
    ']': () => page.pickNext(1),
    Escape: () => page.pick(null),
    g: toggle('goals'),
    l: toggle('lines'),
  };
}

function listenToRunControls(page) {
  const clicks = {
    play: () => page.player.toggle(),
    back: () => page.player.step(-1),
    on: () => page.player.step(1),
    slower: () => page.player.changeSpeed(-1),
    faster: () => page.player.changeSpeed(1),
    'zoom-in': () => page.zoomBy(ZOOM),
    'zoom-out': () => page.zoomBy(1 / ZOOM),
    'zoom-fit': () => page.showAll(),
    unpick: () => page.pick(null),
  };
  for (const [name, click] of Object.entries(clicks)) element(name).addEventListener('click', click);
  element('slider').addEventListener('input', (event) => page.player.jump(Number(event.target.value)));
  for (const name of ['goals', 'lines']) {
    element(`show-${name}`).addEventListener('change', (event) => page.show(name, event.target.checked));
  }
  element('events').addEventListener('click', (event) => {
    const button = event.target.closest('button');
    if (button !== null) page.player.jump(Number(button.dataset.frame));
  });
}

function listenToRuns(page) {
  listenToKeys(runKeysOf(page));
  listenToRunControls(page);
  returnFocus();
  window.addEventListener('resize', () => page.repaint());
  document.addEventListener('visibilitychange', () => { page.player.then = performance.now(); });
  matchMedia('(prefers-color-scheme: dark)').addEventListener('change', () => page.repaint());
}
