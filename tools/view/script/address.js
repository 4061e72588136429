// ---- the address: what is shown, as words after `#`

const SHOWN = ['heat', 'goals', 'lines', 'roomy', 'turns'];
// what is drawn if nothing is said
const SHOWN_FIRST = ['goals', 'lines'];
const ADDRESS_EVERY = 300;

// `t=140` is the tick at which the clock is 140, `robot=3` the picked robot, `zoom=2.5,10,7` shows the map 2.5 times as
// large with column 10, row 7 in the middle, and `heat=1&goals=0&lines=0&roomy=1&turns=1` says what is drawn. `heat=stood-100` is the
// heat of cells on which robots stood in the last 100 ticks.
class Address {
  constructor(page) {
    this.page = page;
  }

  read(hash = location.hash) {
    const { page } = this;
    const words = new URLSearchParams(hash.slice(1));
    for (const name of SHOWN) if (words.has(name)) page.setShown(name, words.get(name) === '1');
    const [kind, window] = (words.get('heat') ?? '').split('-');
    if (HEAT_KINDS.includes(kind) && /^(0|100|1000)$/.test(window)) page.chooseHeat(kind, Number(window));
    if (/^\d+$/.test(words.get('robot') ?? '')) page.setPicked(Number(words.get('robot')));
    const [zoom, x, y] = (words.get('zoom') ?? '').split(',').map(Number.parseFloat);
    if (zoom > 0) page.view.show(zoom, x >= 0 && y >= 0 ? { x, y } : page.view.middle);
    if (/^\d+$/.test(words.get('t') ?? '')) page.player.jump(page.replay.frameOf(BigInt(words.get('t'))));
    else page.draw();
  }

  text() {
    const { view, replay } = this.page;
    const words = [`t=${replay.clockAt(replay.state.frame)}`];
    if (view.picked !== null) words.push(`robot=${view.picked}`);
    const { zoom, middle } = view;
    if (zoom > 1) words.push(`zoom=${zoom.toFixed(2)},${middle.x.toFixed(1)},${middle.y.toFixed(1)}`);
    const others = SHOWN.filter((name) => view.shows[name] !== SHOWN_FIRST.includes(name));
    words.push(...others.map((name) => `${name}=${view.shows[name] ? this.shownText(name) : 0}`));
    return `#${words.join('&')}`;
  }

  shownText(name) {
    const { kind, window } = this.page.view.heat;
    return name === 'heat' && (kind !== 'came' || window !== 0) ? `${kind}-${window}` : 1;
  }

  // The address follows what is shown, a few times a second at most: browsers refuse more.
  follow() {
    if (this.timer !== undefined) return;
    this.timer = setTimeout(() => {
      this.timer = undefined;
      if (this.text() !== location.hash) history.replaceState(null, '', this.text());
    }, ADDRESS_EVERY);
  }

  async copy() {
    history.replaceState(null, '', this.text());
    try {
      await navigator.clipboard.writeText(location.href);
      this.page.tell('The link is copied.');
    } catch {
      this.page.tell('The browser does not let this page copy; the link is in the address line.');
    }
  }
}
