// ---- the beginning

// The page of runs takes the place of the page of chapters.
function startRuns(map, texts) {
  const runs = runsOf(map, texts);
  document.body.replaceChildren(element('runs-page').content);
  const shown = new RunsPage(map, runs);
  listenToRuns(shown);
  return shown;
}

function startChapters(map, traces) {
  const verdicts = verdictsOf(linesOf(element('verdicts').textContent));
  const shown = new Page(map, new Replay(map, tracesOf(traces), verdicts));
  listen(shown);
  shown.searchBound();
  return shown;
}

function start() {
  const map = mapOf(linesOf(element('map-rows').textContent));
  // the element's text begins after the line end that follows its tag
  const text = element('traces').textContent.slice(1);
  const runs = runTextsOf(text);
  const shown = runs.length > 0 ? startRuns(map, runs) : startChapters(map, text);
  document.body.dataset.loaded = Math.round(performance.now());
  return shown;
}

const page = start();
