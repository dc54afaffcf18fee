// In a worker: what takes long. It is given a piece of work and says how far it is; the page ends
// the worker when nobody wants the answer any more.
const SAID_EVERY = 200;

/** What the failures of an area change, part by part: the parts are its routers or, where the
 * library has no call for that, the failures. Says the sums of some parts at a time. */
function failures(library, {lsas, parts, isAt, keepsHit}) {
  let sums = new Map(), done = 0, last = performance.now();
  parts.forEach((part, at) => {
    for (const harm of isAt ? harmsAt(library, lsas, part) : [harmOf(library, lsas, part)]) {
      if (!keepsHit) harm.hit = null;
      if (sums.has(harm.failure)) add(sums.get(harm.failure), harm);
      else sums.set(harm.failure, harm);
    }
    done += 1;
    if (at + 1 < parts.length && performance.now() - last < SAID_EVERY) return;
    postMessage({done, found: [...sums.values()]});
    [sums, done, last] = [new Map(), 0, performance.now()];
  });
}

const WORKS = {
  failures,
  harm: (library, {lsas, name}) => postMessage(harmOf(library, lsas, name)),
  difference: (library, {before, after}) =>
    postMessage({text: answerOf(library, "ospf_diff", before, after).text}),
  layout: (library, {count, edges}) => {
    const nodes = Array.from({length: count}, () => ({}));
    let last = 0;
    placeNodes(nodes, edges, isDone => {
      if (!isDone && performance.now() - last < SAID_EVERY) return;
      last = performance.now();
      postMessage({places: nodes.map(it => it.at), isDone});
    });
  },
};

onmessage = async ({data}) => {
  try {
    const library = data.module ? await Library.of(data.module) : null;
    WORKS[data.work](library, data);
  } catch (error) {
    postMessage({fault: error.message});
  }
};
