// The list of failures, worst first, and the search in it.
const COLUMNS = [
  {key: "name", title: "Failure", of: failureName},
  {key: "kind", title: "Kind", of: it => KINDS[it.kind]},
  {key: "cut", title: "Cut off", count: true, of: it => it.cut},
  {key: "gone", title: "Gone", count: true, of: it => it.gone},
  {key: "cost", title: "Longer", count: true, of: it => it.cost},
  {key: "worst", title: "Worst", count: true, of: it => it.worst === null ? -1 : it.worst},
  {key: "hops", title: "Rerouted", count: true, of: it => it.hops},
  {key: "routers", title: "Routers", count: true, of: it => it.routers},
].filter(it => isAll || it.key !== "routers");
const AT_FIRST = 300;
const sorting = {key: null, isUp: false};
let query = "", most = AT_FIRST;

/** What a failure is found by: its names, addresses, and the prefixes that it changes. */
const wordsOf = new Map();
function words(failure) {
  if (wordsOf.has(failure)) return wordsOf.get(failure);
  const nodes = failure.edge ? [failure.edge.a, failure.edge.b].map(it => D.nodes[it])
    : failure.node ? [failure.node] : [];
  const found = [failure.failure, failureName(failure), KINDS[failure.kind],
    ...nodes.flatMap(it => [it.id, nodeName(it)]),
    ...(failure.edge ? failure.edge.ends.map(it => it[1]) : []),
    ...(failure.node && failure.node.stubs || []).map(it => it[0])];
  wordsOf.set(failure, found.join(" ").toLowerCase());
  return wordsOf.get(failure);
}

/** Whether a failure cuts off or changes a prefix with this text in it. */
function changesPrefix(failure, wanted) {
  if (!wanted.size) return false;
  for (let at = 1; at < (failure.routes || []).length; at += 7)
    if (wanted.has(failure.routes[at])) return true;
  return (failure.lost || []).some((it, at) => at % 2 === 0 && wanted.has(it));
}

/** The failures that the search finds, worst first. */
function found() {
  if (!query) return D.failures;
  const isPrefix = /^[0-9./]+$/.test(query) && query.includes("/");
  const wanted = new Set();
  if (isPrefix) S.forEach((it, at) => { if (it.startsWith(query)) wanted.add(at); });
  return D.failures.filter(it => words(it).includes(query) || changesPrefix(it, wanted));
}

function compare(column) {
  const turn = sorting.isUp ? 1 : -1, names = new Intl.Collator("en", {numeric: true});
  return (a, b) => {
    const [x, y] = [a, b].map(column.of);
    return turn * (column.count ? x - y : names.compare(x, y)) ||
      FAILURES.get(a.failure) - FAILURES.get(b.failure);
  };
}

function cellOf(failure, column) {
  const value = column.of(failure);
  if (column.key === "name") {
    const onclick = () => pick(failure.edge || failure.node || null, {isFromList: true});
    const mark = make("span", {class: "mark " + harm(failure), "aria-hidden": "true"});
    const single = failure.cut ? make("span", {class: "hidden"}, " (single point of failure)")
      : null;
    return make("td", {}, mark, make("button", {type: "button", onclick}, value, single));
  }
  if (!column.count) return make("td", {}, value);
  if (column.key === "worst")
    return make("td", {class: "n"}, value > 0 ? "+" + number(value) : value < 0 ? "?" : "");
  const isColoured = value && ["cut", "cost", "hops"].includes(column.key);
  const colour = isColoured ? " words-" + column.key : "";
  return make("td", {class: "n" + colour}, value ? number(value) : "");
}

function rowOf(failure) {
  const isOn = chosen !== null && failureOf(chosen) === failure;
  return make("tr", {"data-failure": failure.failure, class: isOn ? "on" : null,
    "aria-current": isOn ? "true" : null}, ...COLUMNS.map(it => cellOf(failure, it)));
}

function sortBy(column) {
  if (sorting.key === column.key) sorting.isUp = !sorting.isUp;
  else Object.assign(sorting, {key: column.key, isUp: !column.count});
  showList();
  $("list").querySelector(`[data-key="${column.key}"]`).focus();
}

function headings() {
  const cells = COLUMNS.map(column => {
    const isOn = sorting.key === column.key;
    const arrow = isOn ? (sorting.isUp ? " \u2191" : " \u2193") : "";
    const sorted = isOn ? (sorting.isUp ? "ascending" : "descending") : null;
    return make("th", {scope: "col", class: column.count ? "n" : null, "aria-sort": sorted},
      make("button", {type: "button", "data-key": column.key, onclick: () => sortBy(column)},
        column.title + arrow));
  });
  return make("thead", {}, make("tr", {}, ...cells));
}

/** A part of the list with a heading. */
function group(title, failures, count) {
  const heading = make("th", {scope: "rowgroup", colspan: COLUMNS.length},
    `${title}: ${number(count)}`);
  return make("tbody", {class: "group"}, make("tr", {class: "head"}, heading),
    ...failures.map(rowOf));
}

function showList() {
  const all = found(), table = $("list"), column = COLUMNS.find(it => it.key === sorting.key);
  const parts = [headings()];
  let room = most;
  if (column) {
    parts.push(make("tbody", {}, ...[...all].sort(compare(column)).slice(0, room).map(rowOf)));
  } else {
    for (const [key, title] of GROUPS) {
      const those = all.filter(it => harm(it) === key);
      if (those.length && room > 0) parts.push(group(title, those.slice(0, room), those.length));
      room -= those.length;
    }
  }
  table.replaceChildren(...parts);
  $("failures").querySelectorAll(".more").forEach(it => it.remove());
  if (all.length > most) {
    const onclick = () => { most = Infinity; showList(); };
    $("failures").append(make("p", {class: "more"}, make("button", {type: "button", onclick},
      `Show all ${many(all.length, "failure")}`)));
  }
  $("failures-title").textContent = column ? `Failures, sorted by ${column.title}`
    : "Failures, worst first";
  if (column) $("failures-title").append(" ", make("button", {type: "button", onclick: () => {
    sorting.key = null;
    showList();
  }}, "Worst first"));
}

/** Marks what the search finds, in the drawing and in the list. */
function search(text) {
  query = text.trim().toLowerCase();
  most = AT_FIRST;
  const all = found();
  matching = query ? new Set(all.flatMap(it => [it.edge, it.node].filter(thing => thing))) : null;
  if (matching) for (const node of D.nodes)
    if ((node.id + " " + nodeName(node)).toLowerCase().includes(query)) matching.add(node);
  $("matches").textContent = query ? many(all.length, "failure") + " found" : "";
  showList();
  draw();
}
