// ---- marks on the slider

const MOST_MARKS = 400;

// The marks of a replay: a kind and a part of its time, from 0 to 1. Marks of one kind that would lie on one another
// are one.
function marksOf(replay) {
  const { last } = replay;
  const kept = new Map();
  const add = (kind, frame) => {
    const part = last === 0 ? 0 : frame / last;
    const key = `${kind} ${Math.round(part * MOST_MARKS)}`;
    if (!kept.has(key)) kept.set(key, { kind, part });
  };
  for (const chapter of replay.chapters.slice(1)) add('chapter', chapter.frame);
  replay.events.forEach((events, frame) => {
    for (const event of events) {
      if (event.entry[0] === 'shut') add('shutting', frame);
      else if (isRefusal(event)) add('refusal', frame);
      else if (isConflict(event)) add('fault', frame);
    }
  });
  for (const fault of replay.faults) add('fault', fault.frame);
  return [...kept.values()];
}

function showMarks(place, replay) {
  place.replaceChildren(...marksOf(replay).map(({ kind, part }) => {
    const mark = document.createElement('span');
    mark.className = kind;
    mark.style.setProperty('--part', String(part));
    return mark;
  }));
}
