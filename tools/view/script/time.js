// ---- time: which tick is shown, and play

const SPEEDS = [1, 2, 4, 8, 16, 30, 60, 120];
const GLIDE = 140;
const FLASH = 3000;

class Player {
  constructor(page) {
    this.page = page;
    this.playing = false;
    // how far robots are drawn on their way to the next tick, or from the one before where it is negative
    this.fraction = 0;
  }

  seek(frame) {
    this.fraction = 0;
    this.page.replay.seek(Math.min(Math.max(frame, 0), this.page.replay.last));
    this.page.draw();
    if (!this.playing) {
      this.page.announce();
      this.flash();
    }
  }

  jump(frame) {
    this.pause();
    this.seek(frame);
  }

  step(by) {
    this.jump(this.page.replay.state.frame + by);
  }

  // The next or the previous frame at which something arrives, is refused or is shut.
  stepToEvent(direction) {
    const telling = (event) => event.kind !== 'join' && event.kind !== 'withdraw';
    let frame = this.page.replay.state.frame + direction;
    const { last, events } = this.page.replay;
    while (frame > 0 && frame < last && !(events[frame] ?? []).some(telling)) frame += direction;
    this.jump(frame);
  }

  toggle() {
    if (this.playing) this.pause();
    else this.play();
  }

  play() {
    if (this.page.replay.state.frame === this.page.replay.last) this.page.replay.seek(0);
    this.playing = true;
    this.fraction = 0;
    this.counted = { frames: 0, since: performance.now() };
    this.then = performance.now();
    this.markPlaying();
    requestAnimationFrame((now) => this.animate(now));
  }

  // The replay stops at the nearer tick, and robots that are drawn on their way glide to their cells of that tick.
  pause() {
    if (!this.playing) return;
    this.playing = false;
    if (this.fraction >= 0.5 && this.page.replay.state.frame < this.page.replay.last) {
      this.page.replay.go();
      this.fraction -= 1;
    }
    this.markPlaying();
    this.page.draw();
    this.page.announce();
    this.flash();
    this.glide(performance.now(), this.fraction);
  }

  glide(since, from) {
    if (from === 0) return;
    const ease = (now) => {
      if (this.playing || this.fraction === 0) return;
      const left = Math.max(0, 1 - Math.max(0, now - since) / GLIDE);
      this.fraction = left > 0 ? from * left : 0;
      this.page.view.draw(this.fraction);
      if (left > 0) requestAnimationFrame(ease);
    };
    requestAnimationFrame(ease);
  }

  // The cells at fault flash for a while, unless the system asks for less motion.
  flash() {
    const { replay, view } = this.page;
    const { frame } = replay.state;
    view.pulse = 0;
    if (replay.faultsAt(frame).length === 0) return;
    if (matchMedia('(prefers-reduced-motion: reduce)').matches) return;
    const since = performance.now();
    this.flashing = since;
    const beat = (now) => {
      if (this.flashing !== since || this.playing || replay.state.frame !== frame) return;
      const past = Math.max(0, now - since);
      view.pulse = past >= FLASH ? 0 : (1 - Math.cos(past / 250 * Math.PI)) / 2;
      view.draw(this.fraction);
      if (past < FLASH) requestAnimationFrame(beat);
    };
    requestAnimationFrame(beat);
  }

  markPlaying() {
    const button = element('play');
    button.textContent = this.playing ? '\u275a\u275a' : '\u25b6';
    button.setAttribute('aria-label', this.playing ? 'Pause' : 'Play');
    document.body.dataset.playing = this.playing;
  }

  animate(now) {
    if (!this.playing) return;
    // a page that was hidden goes on from where it was
    this.fraction += Math.min(Math.max(0, now - this.then), 500) / 1000 * this.speed;
    this.then = now;
    while (this.fraction >= 1 && this.page.replay.state.frame < this.page.replay.last) {
      this.fraction -= 1;
      this.page.replay.go();
    }
    if (this.page.replay.state.frame === this.page.replay.last) {
      this.fraction = 0;
      this.pause();
      return;
    }
    this.page.draw();
    this.countFrame(now);
    requestAnimationFrame((next) => this.animate(next));
  }

  // Frames a second while the replay plays.
  countFrame(now) {
    const { counted } = this;
    counted.frames += 1;
    if (now - counted.since < 1000) return;
    document.body.dataset.rate = (counted.frames * 1000 / (now - counted.since)).toFixed(1);
    counted.frames = 0;
    counted.since = now;
  }

  setSpeed(speed) {
    this.speed = speed;
    element('speed').textContent = `${speed} tick${speed === 1 ? '' : 's'} a second`;
    document.body.dataset.speed = speed;
  }

  changeSpeed(by) {
    const place = Math.min(Math.max(SPEEDS.indexOf(this.speed) + by, 0), SPEEDS.length - 1);
    this.setSpeed(SPEEDS[place]);
    this.page.say(element('speed').textContent);
  }
}
