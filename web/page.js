// The page: what is given, what is chosen, what is changed, and what follows.
const DATA = JSON.parse($("data").textContent);
// The failures of an area with more elements than this are computed only on demand.
const AT_ONCE = 400, MOST_WORKERS = 4;
// Of an area with more routers the page keeps no routers that each failure hits.
const MOST_WITH_HIT = 300;
const KINDS = {down: "goes down", cost: "new cost", drain: "drained"};
const UNKNOWN = {...unchanged(""), isUnknown: true};
let library = null, before = null, now = null, changed = [], harms = new Map();

const named = router => router;
const failureOf = thing => thing.fails ? harms.get(thing.fails) || UNKNOWN : null;

function fault(text) {
  $("fault").textContent = text;
  $("fault").hidden = !text;
}

/** Does something, and shows why where it is refused. */
function attempt(what) {
  try {
    fault("");
    return what();
  } catch (error) {
    return fault(error.message);
  }
}

// ---- what takes long, in workers

const SCRIPT = URL.createObjectURL(new Blob([$("shared").textContent, $("worker").textContent],
  {type: "text/javascript"}));
const working = new Map(), open = new Set();

/** Ends all workers that do a work. */
function stop(work) {
  for (const it of working.get(work) || []) it.terminate();
  working.set(work, []);
}

/** Has a worker do a work, and hears each thing that it says. */
function employ(work, words, hear) {
  const worker = new Worker(SCRIPT);
  worker.onmessage = ({data}) => data.fault ? fault(data.fault) : hear(data);
  worker.postMessage({work, ...words});
  working.get(work).push(worker);
}

/** A work is done: when all are, the page says so, for tests. */
function settle(work) {
  open.delete(work);
  stop(work);
  if (!open.size) document.body.dataset.done = "yes";
}

function unsettle(work) {
  open.add(work);
  stop(work);
  delete document.body.dataset.done;
}

// ---- the area

function read() {
  const {lsas, left} = lsasOf($("lsas").value);
  const more = left ? `, ${left} not shown whole or with another checksum, left out` : "";
  attempt(() => {
    before = new Area(library, lsas);
    changed = [];
    chosen = null;
    hasMovedView = false;
    $("read-said").textContent = `${many(before.listed.length, "LSA")}${more}`;
    follow();
  });
}

/** The words of the changes of a kind, a line each. */
const wordsOf = kind => changed.filter(it => it.kind === kind).map(it => it.word + "\n").join("");

const keyOf = thing => "id" in thing ? thing.id : thing.fails;

/** Applies the changes, and shows what follows. */
function follow() {
  const lsas = changed.length ? answerOf(library, "ospf_edit", before.lsas, wordsOf("down"),
    wordsOf("cost"), wordsOf("drain")).text : before.lsas;
  const key = chosen && keyOf(chosen), places = new Map(scene.nodes.map(it => [it.id, it.at]));
  now = new Area(library, lsas);
  chosen = key ? now.thing(key) : null;
  current = hovered = null;
  harms = new Map();
  putInPlace(places);
  showDetail();
  showAfter();
  showRouters();
  computeHarms();
  search($("search").value);
}

/** Puts the area into the drawing. Nodes that were there before keep their places. */
function putInPlace(places) {
  setScene(now.list, now.edges);
  unsettle("layout");
  if (now.list.every(it => places.get(it.id))) {
    for (const node of now.list) node.at = places.get(node.id);
    showPlaces();
    return settle("layout");
  }
  const edges = now.edges.map(({a, b}) => ({a, b})), area = now;
  return employ("layout", {count: now.list.length, edges}, ({places: found, isDone}) => {
    area.list.forEach((it, at) => { it.at = found[at]; });
    showPlaces();
    if (isDone) settle("layout");
  });
}

function change(kind, word) {
  const kept = changed.filter(it => it.kind !== kind || it.word.split("=")[0] !== word.split("=")[0]);
  const old = changed;
  changed = [...kept, {kind, word}];
  attempt(() => {
    try {
      follow();
    } catch (error) {
      changed = old;
      throw error;
    }
  });
}

function undo(it) {
  changed = changed.filter(other => other !== it);
  attempt(follow);
}

function showSummary() {
  const networks = now.list.filter(it => it.kind === "network").length;
  const single = [...harms.values()].filter(it => it.cut).length;
  $("summary").textContent = `${many(now.routers.length, "router")}, ` +
    `${many(networks, "network")}, ${many(now.elements.length, "failure")}, ` +
    many(single, "single point of failure", "single points of failure") +
    (harms.size < now.elements.length ? " so far" : "");
}

// ---- what is chosen

function pick(thing) {
  chosen = thing;
  showDetail();
  $("said").textContent = thing ? description(thing) : "Nothing is chosen.";
  markList();
  findHit();
  if (thing) reveal(thing);
  draw();
  if (thing && now.routers.includes(thing.id)) {
    $("router").value = thing.id;
    attempt(showTable);
  }
}

/** A field for the cost of an interface. */
function costField([router, address, cost]) {
  const id = `cost-${router}-${address}`;
  const input = make("input", {id, type: "number", min: 1, max: 65535, value: cost});
  const set = () => change("cost", `${router}@${address}=${input.value}`);
  input.addEventListener("keydown", event => event.key === "Enter" && set());
  return make("p", {class: "row"}, make("label", {for: id}, `Cost at ${router}, ${address}`),
    input, button("Set", set));
}

function showDetail() {
  if (!chosen) return $("detail").replaceChildren(
    make("h2", {id: "detail-title"}, "Choose a router or a link"),
    make("p", {}, "Then take it down, set costs, or drain a router. The tables, the paths and the " +
      "failures of the area follow."));
  const thing = chosen, failure = failureOf(thing), name = thing.fails, isNode = "id" in thing;
  const inner = [make("h2", {id: "detail-title"}, `${thing.kind} ${thingName(thing)}`),
    make("p", {id: "effect"}), make("p", {id: "single"})];
  if (failure) inner.push(button("Take it down", () => change("down", name)));
  if (thing.kind === "router") inner.push(" ", button("Drain", () => change("drain", thing.id)));
  const ends = isNode ? now.edges.flatMap(it => it.ends).filter(it => it[0] === thing.id)
    : thing.ends;
  $("detail").replaceChildren(...inner, ...ends.map(costField));
  return showEffect();
}

/** What is known of the failure of what is chosen. */
function showEffect() {
  const failure = chosen && failureOf(chosen);
  if (!chosen) return;
  $("effect").textContent = failure ? `If it fails: ${effect(failure)}.`
    : "It has no failure of its own.";
  $("single").replaceChildren(failure && failure.cut
    ? make("span", {class: "spof"}, "! Single point of failure") : "");
}

// ---- before and after

function showAfter() {
  const list = changed.map(it => make("li", {}, `${it.word}: ${KINDS[it.kind]} `,
    button("Undo", () => undo(it))));
  $("changes").replaceChildren(list.length ? make("ol", {}, ...list)
    : make("p", {}, "Nothing is changed yet."));
  unsettle("difference");
  $("difference").replaceChildren(list.length ? "Comparing .." : "");
  if (!list.length) return settle("difference");
  return employ("difference", {module: library.module, before: before.lsas, after: now.lsas},
    ({text}) => {
      showDifference(changesIn(text));
      settle("difference");
    });
}

function showDifference({routes, sums}) {
  const rowOf = it => make("tr", {class: "word-" + it.word}, cell(it.router), cell(it.word),
    prefixCell(it.prefix), cell(it.more));
  $("difference").replaceChildren(make("p", {id: "sums"}, sums), routes.length
    ? rows([["Router"], ["Route"], ["Prefix"], ["Costs and next hops"]], routes, rowOf) : "",
  make("details", {}, make("summary", {}, "The LSAs after the changes"),
    make("pre", {id: "changed"}, now.lsas)));
}

// ---- tables and paths

function showRouters() {
  const kept = $("router").value, all = [...new Set([...before.routers, ...now.routers])];
  $("router").replaceChildren(...all.map(it => make("option", {value: it}, it)));
  if (all.includes(kept)) $("router").value = kept;
  showTable();
}

const tableIn = (area, router) => new Map(
  JSON.parse(answerOf(library, "ospf_table_json", area.lsas, numberOf(router)).text)
    .map(it => [it.prefix, it]));
const routeText = route => route
  ? `${route.cost} via ${route.hops.join(", ")}`.replace("via attached", "attached") : "none";

/** The table of a router, before and after: routes that change come first. */
function showTable() {
  const router = $("router").value;
  if (!router) return $("table").replaceChildren();
  const old = tableIn(before, router), after = changed.length ? tableIn(now, router) : old;
  const routes = [...new Set([...old.keys(), ...after.keys()])].map(prefix => {
    const [was, is] = [old, after].map(it => routeText(it.get(prefix)));
    return {prefix, was, is, stays: was === is};
  });
  routes.sort((a, b) => a.stays - b.stays);
  const isBoth = changed.length > 0;
  $("table").replaceChildren(rows([["Prefix"], ...(isBoth ? [["Before"], ["After"]] : [["Route"]])],
    routes, ({prefix, was, is, stays}) => make("tr", {class: stays ? null : "changed"},
      prefixCell(prefix), cell(was), isBoth ? cell(is) : null)));
  return showPath();
}

function showPath() {
  const router = $("router").value, address = $("address").value.trim();
  if (!/^\d+(\.\d+){3}$/.test(address) || !router) return $("path").replaceChildren();
  const pathIn = area => library.call("ospf_path", area.lsas, numberOf(router), numberOf(address),
    []).text;
  const told = [make("h3", {}, changed.length ? "Path before" : "Path"),
    make("pre", {id: "path-before"}, pathIn(before))];
  if (changed.length) told.push(make("h3", {}, "Path after"),
    make("pre", {id: "path-after"}, pathIn(now)));
  return $("path").replaceChildren(...told);
}

// ---- every failure

/** Takes what some parts say of a failure. */
function take(found) {
  const known = harms.get(found.failure);
  if (known) add(known, found);
  else harms.set(found.failure, found);
}

/** Has workers compute what each failure changes: the page goes on meanwhile. Router by router, if
 * the library can, or else failure by failure. */
function computeHarms(all = now.elements.length <= mostAtOnce()) {
  const isAt = library.has("ospf_failures_at"), parts = isAt ? now.routers : now.elements;
  const area = now, keepsHit = area.routers.length <= MOST_WITH_HIT;
  const count = Math.min(MOST_WORKERS, Math.max((navigator.hardwareConcurrency || 2) - 1, 1),
    parts.length);
  const progress = {done: 0, all: parts.length, unit: isAt ? "router" : "failure"};
  unsettle("failures");
  if (!all || !parts.length) return offerHarms();
  const soon = everySome(() => showHarms(progress));
  for (let at = 0; at < count; at++) employ("failures", {module: library.module, lsas: area.lsas,
    isAt, keepsHit, parts: parts.filter((_, part) => part % count === at)}, ({done, found}) => {
    progress.done += done;
    found.forEach(take);
    if (progress.done < progress.all) return soon();
    for (const name of area.elements) if (!harms.has(name)) harms.set(name, unchanged(name));
    settle("failures");
    return showHarms(null);
  });
  return showHarms(progress);
}

const mostAtOnce = () => library.has("ospf_failures_at") ? 3 * AT_ONCE : AT_ONCE;

/** The failures of a large area are computed only if that is wanted. */
function offerHarms() {
  settle("failures");
  showHarms(null);
  $("progress").replaceChildren(now.elements.length ? button(
    `Compute all ${many(now.elements.length, "failure")}`, () => computeHarms(true)) : "");
}

/** A call that comes at most a few times a second, and not for an earlier area. */
function everySome(call) {
  let isDue = false;
  const area = now;
  return () => {
    if (isDue) return;
    isDue = true;
    setTimeout(() => {
      isDue = false;
      if (area === now && open.has("failures")) call();
    }, 400);
  };
}

function showProgress(progress) {
  if (!progress) return $("progress").replaceChildren();
  const told = ` ${number(progress.done)} of ${many(progress.all, progress.unit)} `;
  if (!$("bar")) $("progress").replaceChildren(make("progress", {id: "bar", max: progress.all,
    "aria-label": "Failures computed"}), make("span", {id: "told"}), button("Stop", () => {
    settle("failures");
    $("progress").replaceChildren("Stopped after" + $("told").textContent);
  }));
  $("bar").value = progress.done;
  return $("told").replaceChildren(told);
}

/** In a large area, has a worker find which routers the chosen failure hits. */
function findHit() {
  const thing = chosen, known = thing && harms.get(thing.fails);
  stop("harm");
  if (!known || known.hit) return;
  employ("harm", {module: library.module, lsas: now.lsas, name: thing.fails}, found => {
    known.hit = found.hit;
    stop("harm");
    draw();
  });
}

const HEAD = [["Failure"], ...EFFECTS.map(([, word]) => [word, true]), ["routers", true]];

function rowOf(it) {
  const thing = now.thing(it.failure);
  return make("tr", {"data-failure": it.failure}, make("td", {},
    make("span", {class: "mark " + harm(it), "aria-hidden": "true"}),
    button(it.failure, () => pick(thing === chosen ? null : thing))),
  ...EFFECTS.map(([key]) => cell(String(it[key]), true)), cell(String(it.routers), true));
}

/** Marks what is chosen in the list. */
function markList() {
  const name = chosen && chosen.fails;
  for (const row of $("list").querySelectorAll("tr[data-failure]")) {
    row.classList.toggle("on", row.dataset.failure === name);
    if (row.dataset.failure === name) row.setAttribute("aria-current", "true");
    else row.removeAttribute("aria-current");
  }
}

function showHarms(progress) {
  showProgress(progress);
  const all = [...harms.values()].sort(byHarm);
  rank(all);
  putInOrder();
  $("list").replaceChildren(all.length ? rows(HEAD, all, rowOf) : "");
  markList();
  draw();
  showSummary();
  showEffect();
}

// ---- search

/** All that a node or an edge is found by. */
const findable = thing => [keyOf(thing), thingName(thing), ...("id" in thing ? []
  : thing.ends.map(it => it[1]))].join(" ").toLowerCase();

function search(wanted) {
  const word = wanted.trim().toLowerCase(), all = [...now.list, ...now.edges];
  matching = word ? new Set(all.filter(it => findable(it).includes(word))) : null;
  $("matches").textContent = word ? `${number(matching.size)} found` : "";
  draw();
}

/** Goes to what is found: to a node that is called so, or else to the first one. */
function goToFound() {
  const word = $("search").value.trim(), found = [...matching || []];
  const thing = found.find(it => it.id === word) || found[0];
  if (!thing) return;
  pick(thing);
  closeUp(thing);
}

// ---- the start

function redraw() {
  readColours();
  heatLegend();
  draw();
}

function give(text) {
  $("lsas").value = text;
  read();
}

async function takeFile(file) {
  if (file) give(await file.text());
}

async function start() {
  setTheme("system", redraw);
  if (!hasMemory64()) return fault("This browser has no WebAssembly memory with 64-bit addresses " +
    "(Memory64). Chromium 133 and Firefox 134 and later have it.");
  const bytes = Uint8Array.from(atob(DATA.wasm), it => it.charCodeAt(0));
  library = await Library.open(bytes);
  $("example").replaceChildren(...Object.keys(DATA.examples)
    .map(it => make("option", {value: it}, it)));
  $("source").textContent = `All answers are those of libospf ${DATA.version}, the library of ospfd, ` +
    "compiled to WebAssembly. This page computes no routes and loads nothing.";
  startPlays();
  return give(DATA.examples[$("example").value]);
}

$("example").addEventListener("change", event => give(DATA.examples[event.target.value]));
$("file").addEventListener("change", event => takeFile(event.target.files[0]));
$("read").addEventListener("click", read);
$("router").addEventListener("change", () => attempt(showTable));
$("address").addEventListener("input", () => attempt(showPath));
$("search").addEventListener("input", event => search(event.target.value));
$("find").addEventListener("submit", event => { event.preventDefault(); goToFound(); });
$("theme").addEventListener("click", () => setTheme(nextTheme(), redraw));
matchMedia("(prefers-color-scheme: dark)").addEventListener("change", redraw);
document.body.addEventListener("dragover", event => event.preventDefault());
document.body.addEventListener("drop", event => {
  event.preventDefault();
  takeFile(event.dataTransfer.files[0]);
});
// For tests: the calls of the library, as the page makes them, and where in the window a node or
// what fails is drawn.
window.ospf = (...words) => library.call(...words);
window.whereIs = name => windowPlace(now.thing(name));
window.isAtRest = () => !open.has("layout");
