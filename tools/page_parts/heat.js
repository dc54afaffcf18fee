// The topology as a heat map: what each failure does, in words and in colours. A page gives
// `failureOf`, the failure of a node or an edge.
const LOSSES = ["cut", "gone", "cost", "hops"];
const EFFECTS = [["cut", "cut off"], ["gone", "gone"], ["cost", "longer"], ["hops", "rerouted"]];
const GROUPS = [["cut", "Single points of failure"], ["cost", "Longer paths"],
  ["hops", "Other next hops at the same cost"], ["none", "No effect on other prefixes"]];

/** How bad a failure is: a key of GROUPS. */
function harm(failure) {
  if (!failure) return "none";
  return GROUPS.find(([key]) => key === "none" || failure[key] > 0)[0];
}

const changes = failure => LOSSES.reduce((sum, it) => sum + failure[it], 0);

/** A sentence about what a failure does. */
function effect(failure) {
  if (failure.isUnknown) return "not computed yet";
  const found = EFFECTS.filter(([key]) => failure[key]);
  return found.length ? found.map(([key, word]) => `${number(failure[key])} ${word}`).join(", ")
    : "changes nothing";
}

/** What a node or an edge is, for a tip or a screen reader. */
function description(thing) {
  const failure = failureOf(thing), kind = thing.kind === "absent" ? "no LSA" : thing.kind;
  const single = failure && failure.cut ? ", single point of failure" : "";
  const told = failure ? effect(failure) : "no failure of its own";
  return `${thingName(thing)}, ${kind}${single}: ${told}`;
}

/** How bad a failure is among those of its group: from 0 to 1. */
const RANKS = new Map();
function rank(failures) {
  RANKS.clear();
  for (const [key] of GROUPS) {
    const those = failures.filter(it => harm(it) === key);
    those.sort((a, b) => changes(a) - changes(b));
    let place = 0;
    those.forEach((it, at) => {
      if (at && changes(it) > changes(those[at - 1])) place = at;
      RANKS.set(it, those.length < 2 ? 1 : place / (those.length - 1));
    });
  }
}

/** How wide a line is, and its colour: by what happens, and to how many routes. */
function width(failure) {
  if (!failure || harm(failure) === "none") return 1.5;
  const least = {cut: 4, cost: 1.5, hops: 1.5}[harm(failure)];
  return (least + 3 * (RANKS.get(failure) || 0)) * (view.scale < 0.3 ? 0.6 : 1);
}

function colour(failure) {
  const key = harm(failure);
  if (key !== "cost" && key !== "hops") return colours[key];
  const steps = colours.steps[key];
  return steps[Math.round((RANKS.get(failure) || 0) * (steps.length - 1))];
}

/** Whether a node or an edge goes down with what is chosen. */
function isDown(thing) {
  if (!chosen || failureOf(chosen) === null) return false;
  if (thing === chosen) return true;
  return "id" in chosen && "a" in thing &&
    (scene.nodes[thing.a] === chosen || scene.nodes[thing.b] === chosen);
}

/** How a node or an edge is drawn. */
function lookOf(thing) {
  const failure = failureOf(thing), isOut = isDown(thing);
  const isDashed = "id" in thing ? thing.kind === "absent" : thing.kind === "one-way" || !failure;
  return {colour: colour(failure), width: width(failure), isOut,
    dashes: isOut ? [3, 5] : isDashed ? [8, 5] : [],
    weight: SEVERE.indexOf(harm(failure)) + (RANKS.get(failure) || 0) / 2,
    mark: failure && failure.cut ? "!" : null, markColour: colours.cut};
}

/** The colour of the worst that the chosen failure does to a router; null where it does nothing. */
function haloOf(node) {
  const hit = chosen && failureOf(chosen) && failureOf(chosen).hit;
  const loss = hit ? hit[node.id] : undefined;
  return loss === undefined || loss === "gone" ? null : colours[loss];
}

/** A line or a mark of the drawing, and what it means. */
function heatLegend() {
  const lines = [["cut", "cut", "cuts prefixes off (!)"],
    ["cost-few", "cost", "longer paths, few to many"],
    ["hops-few", "hops", "rerouted, few to many"],
    ["none", "none", "no effect on others"]];
  const wedge = (key, points) => shape("polygon", {points, fill: `var(--${key})`});
  const items = lines.map(([few, all, words]) => make("li", {},
    shape("svg", {width: 30, height: 14, "aria-hidden": "true"}, wedge(few, "0,6 15,5 15,9 0,8"),
      wedge(all, "15,5 30,3 30,11 15,9")), words));
  $("legend").replaceChildren(...items, make("li", {}, "dashed: no failure of its own, or one-way"),
    make("li", {}, "halo: the harm to a router"));
}
