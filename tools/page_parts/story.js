// An area that changes: what came, what went, and what has another cost, at each moment. All of it
// is taken from answers of the program.
const D = JSON.parse(document.getElementById("data").textContent);
const isDiff = D.routes !== null;
const named = router => D.names[router] || router;
const WORDS = {lost: "cut", longer: "cost", shorter: "cost", rerouted: "hops"};
const ROUTES = ["lost", "gained", "longer", "shorter", "rerouted"];
const MARKS = {up: "+", down: "\u2212", cost: "\u2260"}, LETTERS = {up: "came", down: "went",
  cost: "cost"};
const PACE = 900;

/** The changes of one moment: a step. After so many steps the picture shows `at`. */
const STEPS = [];
for (const it of D.changes) {
  if (!STEPS.length || STEPS[STEPS.length - 1].time !== it.time) STEPS.push({time: it.time, all: []});
  STEPS[STEPS.length - 1].all.push(it);
}
let at = STEPS.length;

const keyOf = thing => "id" in thing ? thing.id : thing.name;
const THINGS = new Map([...D.nodes, ...D.edges].filter(keyOf).map(it => [keyOf(it), it]));
const END = new Map(D.edges.flatMap(edge => edge.ends.map(end => [end[0] + " " + end[1],
  {edge, end, cost: end[2]}])));

/** What happens to each thing, and to the cost of each end: the steps and what becomes of it. */
const LIVES = new Map(), COSTS = new Map();
STEPS.forEach((step, number) => {
  for (const it of step.all.filter(other => other.event === "change")) {
    const isCost = it.change === "cost", lives = isCost ? COSTS : LIVES;
    const key = isCost ? it.router + " " + it.address : it.name;
    if (!lives.has(key)) lives.set(key, []);
    lives.get(key).push({step: number, change: it.change, old: it.old, new: it.new});
  }
});

/** The last change before a number of steps, and the next one after it. */
function lastAndNext(life, steps) {
  const past = life.filter(it => it.step < steps);
  return [past[past.length - 1], life.find(it => it.step >= steps)];
}

/** Whether a thing is there after the steps that are shown. What changes later was before that what
 * it is not then; what never changes is there. */
function isThere(thing) {
  const [last, next] = lastAndNext(LIVES.get(keyOf(thing)) || [], at);
  return last ? last.change === "up" : next ? next.change === "down" : true;
}

/** What the last step shown did to a thing: up, down or cost; null where nothing. */
function changeOf(thing) {
  const life = LIVES.get(keyOf(thing)) || [], found = life.find(it => it.step === at - 1);
  if (found) return found.change;
  const isCost = (thing.ends || []).some(end => (COSTS.get(end[0] + " " + end[1]) || [])
    .some(it => it.step === at - 1));
  return isCost ? "cost" : null;
}

/** Gives each end the cost that it has after the steps that are shown. */
function setCosts() {
  for (const [key, {end, cost}] of END) {
    const [last, next] = lastAndNext(COSTS.get(key) || [], at);
    end[2] = last ? last.new : next ? next.old : cost;
    end[3] = last && last.step === at - 1 ? `${last.old} \u2192 ${last.new}` : null;
  }
}

// ---- the drawing

const nodeOfEdge = edge => [D.nodes[edge.a], D.nodes[edge.b]];

function lookOf(thing) {
  const change = changeOf(thing), isOut = !isThere(thing) ||
    "a" in thing && nodeOfEdge(thing).some(it => !isThere(it));
  const colour = change ? colours[LETTERS[change]] : isOut ? colours.went : colours.none;
  return {colour, width: change ? 4 : isOut ? 1.5 : 2, isOut: false, mark: change && MARKS[change],
    markColour: colour, weight: change ? 2 : 0,
    dashes: isOut ? [3, 5] : thing.kind === "one-way" || thing.kind === "absent" ? [8, 5] : []};
}

/** The routes that the step shown lost or changed, by router: the worst, as a key of the colours. */
let harmed = new Map();
function findHarmed() {
  harmed = new Map();
  if (isDiff && at) {
    for (const [router, word] of D.routes) {
      const loss = WORDS[word], known = harmed.get(router);
      if (loss && (!known || SEVERE.indexOf(loss) > SEVERE.indexOf(known))) harmed.set(router, loss);
    }
  } else if (at) {
    for (const it of STEPS[at - 1].all.filter(other => other.event === "settled")) {
      for (const one of it.lost) harmed.set(one.router, "cut");
      for (const router of it.stranded.new) harmed.set(router, "cut");
    }
  }
}

const haloOf = node => harmed.has(node.id) ? colours[harmed.get(node.id)] : null;

const CHANGED = {up: "came", down: "went", cost: "has another cost"};
function description(thing) {
  const change = changeOf(thing), kind = thing.kind === "absent" ? "no LSA" : thing.kind;
  const loss = {cut: ", loses routes", cost: ", other costs", hops: ", other next hops"};
  const harm = loss[harmed.get(thing.id)] || "";
  return `${thingName(thing)}, ${kind}: ${change ? CHANGED[change] : isThere(thing) ? "there"
    : "not there"}${harm}`;
}

// ---- the time

const clock = time => new Date(time).toISOString().replace("T", " ").slice(0, 23);

/** What an event says. */
function told(it) {
  if (it.event === "start") return `watching: ${many(it.routers, "router")}, ` +
    `${many(it.networks, "transit network")}, ${many(it.lsas, "LSA")}`;
  if (it.event === "prefix") return `prefix ${it.prefix} ${it.change}`;
  if (it.event === "trouble") return `trouble: ${it.text}`;
  if (it.event === "settled") return "settled: " + ROUTES.map(word =>
    `${number(it.routes[word])} ${word}`).join(", ") + `, at ${many(it.routes.routers, "router")}`;
  if (it.change === "cost")
    return `cost ${named(it.router)} ${it.address} to ${named(it.to)}: ${it.old} \u2192 ${it.new}`;
  const thing = THINGS.get(it.name);
  return `${it.kind} ${thing ? thingName(thing) : it.name} ${it.change}`;
}

const thingOfEvent = it => it.change === "cost" ? (END.get(it.router + " " + it.address) || {}).edge
  : THINGS.get(it.name);

function momentText() {
  if (isDiff) return at ? "after" : "before";
  return at ? `${clock(STEPS[at - 1].time)} UTC, ${at} of ${STEPS.length}` : "before the first event";
}

/** Shows the area after so many steps. */
function show(steps) {
  at = Math.max(0, Math.min(STEPS.length, steps));
  setCosts();
  findHarmed();
  putInOrder();
  const slider = $("slider"), words = at ? STEPS[at - 1].all.map(told).join("; ") : "";
  slider.value = at;
  slider.setAttribute("aria-valuetext", [momentText(), words.slice(0, 200)].join(": "));
  $("moment").textContent = momentText();
  for (const mark of $("line").querySelectorAll("[data-step]"))
    mark.classList.toggle("on", Number(mark.dataset.step) === at);
  for (const row of $("list").querySelectorAll("tr[data-step]")) {
    const isOn = !isDiff && Number(row.dataset.step) === at;
    row.classList.toggle("on", isOn);
    if (isOn) row.setAttribute("aria-current", "true");
    else row.removeAttribute("aria-current");
  }
  showDetail();
  draw();
}

/** All moments on one line, each where its time is. */
function drawLine() {
  if (isDiff || !STEPS.length) return;
  const wide = 1000, first = STEPS[0].time, all = STEPS[STEPS.length - 1].time - first || 1;
  const kindOf = step => ["down", "cost", "up"].find(kind => step.all.some(it =>
    it.event === "change" && it.change === kind)) || "rest";
  $("line").setAttribute("viewBox", `0 0 ${wide} 22`);
  $("line").replaceChildren(shape("rect", {x: 0, y: 10, width: wide, height: 2, class: "axis"}),
    ...STEPS.map((step, place) => {
      const x = (step.time - first) / all * (wide - 6), mark = shape("rect", {x, y: 2, width: 6,
        height: 18, class: "tick " + kindOf(step), "data-step": place + 1});
      mark.addEventListener("click", () => show(place + 1));
      return mark;
    }));
}

let playing = null;
function play() {
  clearInterval(playing);
  const isOn = playing === null;
  $("play").textContent = isOn ? "Pause" : "Play";
  playing = null;
  if (!isOn) return;
  if (at === STEPS.length) show(0);
  playing = setInterval(() => at < STEPS.length ? show(at + 1) : play(), PACE);
}

// ---- what is told beside the drawing

/** The changes of a step, each a button that chooses what changed. */
function listOf(all) {
  return make("ul", {class: "events"}, ...all.map(it => {
    const thing = it.event === "change" && thingOfEvent(it);
    const mark = it.event === "change" && it.change in MARKS ? make("span", {class: "sign " +
      LETTERS[it.change], "aria-hidden": "true"}, MARKS[it.change]) : null;
    return make("li", {}, mark, thing ? button(told(it), () => pick(thing)) : told(it));
  }));
}

/** How many routes of each router changed, those of most losses first. */
function byRouter() {
  const found = new Map();
  for (const [router, word] of D.routes) {
    if (!found.has(router)) found.set(router, Object.fromEntries(ROUTES.map(it => [it, 0])));
    found.get(router)[word] += 1;
  }
  const all = [...found].sort(([, a], [, b]) => b.lost - a.lost || b.longer - a.longer ||
    b.rerouted - a.rerouted);
  return rows([["Router"], ...ROUTES.map(it => [it, true])], all, ([router, counts]) =>
    make("tr", {}, make("td", {}, button(named(router), () => pick(THINGS.get(router)))),
      ...ROUTES.map(it => make("td", {class: "n" + (counts[it] && WORDS[it]
        ? " words-" + WORDS[it] : "")}, counts[it] ? number(counts[it]) : ""))));
}

function routesOf(router) {
  const all = D.routes.filter(it => it[0] === router);
  return all.length ? [make("h3", {}, `Routes of ${named(router)}: ${number(all.length)}`),
    rows([["Route"], ["Prefix"], ["Costs and next hops"]], all, ([, word, prefix, more]) =>
      make("tr", {}, make("td", {class: "words-" + WORDS[word]}, word), prefixCell(prefix),
        cell(more)))] : [make("p", {}, `No route of ${named(router)} changes.`)];
}

function settledParts(it) {
  const inner = [];
  if (it.lost.length) inner.push(make("h3", {class: "words-cut"}, `Lost: ${many(it.lost.length,
    "route")}`), rows([["Router"], ["Prefix"]], it.lost, one => make("tr", {},
    cell(named(one.router)), prefixCell(one.prefix))));
  for (const [key, title] of [["new", "Stranded"], ["gone", "No longer stranded"]])
    if (it.stranded[key].length) inner.push(make("h3", {}, title), make("p", {},
      it.stranded[key].map(named).join(", ")));
  for (const [key, title] of [["new", "New single points of failure"],
    ["gone", "No single points of failure any more"]])
    if (it.single_points[key].length) inner.push(make("h3", {}, title), rows([["Failure"],
      ["Routes lost", true]], it.single_points[key], one => make("tr", {}, cell(one.failure),
      cell(number(one.lost), true))));
  return inner;
}

/** What is chosen, if something is. */
function chosenParts() {
  if (!chosen) return [];
  const inner = [make("h3", {}, thingName(chosen)), make("p", {class: "quiet"}, description(chosen))];
  for (const [router, address, cost] of chosen.ends || [])
    inner.push(make("p", {class: "quiet"}, `${named(router)}: interface ${address}, cost ${cost}`));
  const life = LIVES.get(keyOf(chosen)) || [];
  if (!isDiff && life.length) inner.push(make("ul", {class: "events"}, ...life.map(it =>
    make("li", {}, button(`${clock(STEPS[it.step].time)} ${it.change}`, () => show(it.step + 1))))));
  if (isDiff && chosen.kind === "router") inner.push(...routesOf(chosen.id));
  return inner;
}

function showDetail() {
  const step = at ? STEPS[at - 1] : null;
  const inner = [make("h2", {id: "detail-title"}, isDiff ? (at ? "After the change"
    : "Before the change") : step ? clock(step.time) + " UTC" : "Before the first event")];
  if (isDiff) {
    inner.push(make("p", {id: "sums"}, D.sums), ...chosenParts(),
      ...(D.routes.length ? [make("h3", {}, "Routes by router"), byRouter()] : []));
  } else {
    if (step) inner.push(listOf(step.all), ...step.all.filter(it => it.event === "settled")
      .flatMap(settledParts));
    inner.push(...chosenParts());
  }
  $("detail").replaceChildren(...inner);
}

function showList() {
  const all = STEPS.flatMap((step, place) => step.all.map(it => [it, place + 1]));
  const head = [...(isDiff ? [] : [["Time"]]), ["Change"]];
  const one = ([it, step]) => {
    const thing = it.event === "change" && thingOfEvent(it), sign = it.event === "change"
      ? make("span", {class: "sign " + LETTERS[it.change], "aria-hidden": "true"}, MARKS[it.change])
      : null;
    const go = () => { show(step); if (thing) pick(thing); };
    return make("tr", {"data-step": step}, isDiff ? null : cell(clock(it.time)),
      make("td", {}, sign, button(told(it), go)));
  };
  $("list").replaceChildren(all.length ? rows(head, all, one) : make("p", {}, "Nothing changed."));
}

function pick(thing) {
  chosen = thing || null;
  $("said").textContent = thing ? description(thing) : "Nothing is chosen.";
  showDetail();
  if (thing) reveal(thing);
  draw();
}

function legend() {
  const sign = (kind, words) => make("li", {}, make("span", {class: "sign " + kind,
    "aria-hidden": "true"}, {came: "+", went: "\u2212", cost: "\u2260"}[kind]), words);
  $("legend").replaceChildren(sign("came", "came"), sign("went", "went"), sign("cost", "other cost"),
    make("li", {}, "dashed: not there, or one-way"), make("li", {}, "halo: routes of a router"));
}

function redraw() {
  readColours();
  legend();
  draw();
}

const findable = thing => [keyOf(thing) || "", thingName(thing), ...(thing.ends || [])
  .map(it => it[1])].join(" ").toLowerCase();

function search(text) {
  const word = text.trim().toLowerCase();
  matching = word ? new Set([...D.nodes, ...D.edges].filter(it => findable(it).includes(word))) : null;
  $("matches").textContent = word ? `${number(matching.size)} found` : "";
  draw();
}

$("slider").max = STEPS.length;
$("slider").addEventListener("input", event => show(Number(event.target.value)));
$("earlier").addEventListener("click", () => show(at - 1));
$("later").addEventListener("click", () => show(at + 1));
$("play").addEventListener("click", play);
$("play").hidden = isDiff;
$("search").addEventListener("input", event => search(event.target.value));
$("find").addEventListener("submit", event => {
  event.preventDefault();
  const [first] = matching || [];
  if (first && isPlaced()) { pick(first); closeUp(first); }
});
$("theme").addEventListener("click", () => setTheme(nextTheme(), redraw));
$("skip").addEventListener("click", event => {
  event.preventDefault();
  $("failures").focus();
  $("failures").scrollIntoView();
});
matchMedia("(prefers-color-scheme: dark)").addEventListener("change", redraw);
// For tests: where in the window a node, or the middle of what has a name, is drawn; choosing it.
window.whereIs = name => windowPlace(THINGS.get(name));
window.pickNamed = name => pick(THINGS.get(name));

setScene(D.nodes, D.edges);
setTheme("system", redraw);
$("summary").textContent = `${many(D.nodes.filter(it => it.kind === "router").length, "router")}, ` +
  (isDiff ? many(D.changes.length, "change") : `${many(D.changes.length, "event")}, ` +
  `${many(STEPS.length, "moment")}`);
$("source").append(`All of this is said by ${D.program}, of ${D.of}. This page computes no routes ` +
  "and loads nothing.");
drawLine();
showList();
show(STEPS.length);
placeNodes(D.nodes, D.edges, showPlaces);
