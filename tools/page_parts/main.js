// What is chosen, kept in the address of the page, so that a link to it shows the same.

/** The address of the page names the failure, the router whose table is shown, and the theme. */
function remember() {
  const words = new URLSearchParams(), failure = chosen && failureOf(chosen);
  if (failure) words.set("failure", failure.failure);
  if (failure && shownRouter.id) words.set("table", shownRouter.id);
  if (query) words.set("search", query);
  if (theme() !== "system") words.set("theme", theme());
  const hash = "#" + words.toString();
  try {
    history.replaceState(null, "", hash === "#" ? location.pathname : hash);
  } catch (error) {
    // Some browsers keep no history of a file.
  }
}

/** Chooses a node or an edge, or nothing. */
function pick(thing, {isFromList = false} = {}) {
  const failure = thing && failureOf(thing);
  chosen = thing;
  showDetail();
  for (const row of $("list").querySelectorAll("tr[data-failure]")) {
    const isOn = Boolean(failure) && failure.failure === row.dataset.failure;
    row.classList.toggle("on", isOn);
    if (isOn) row.setAttribute("aria-current", "true");
    else row.removeAttribute("aria-current");
  }
  $("said").textContent = thing ? description(thing) : "Nothing is chosen.";
  $("detail").scrollTop = 0;
  if (thing) reveal(thing);
  if (isFromList && matchMedia("(max-width: 900px)").matches) $("detail").scrollIntoView();
  remember();
  draw();
}

function redraw() {
  readColours();
  heatLegend();
  draw();
}

function summary() {
  const routers = D.nodes.filter(it => it.kind === "router").length;
  const networks = D.nodes.filter(it => it.kind === "network").length;
  const single = D.failures.filter(it => it.cut > 0).length;
  const seen = isAll ? "of all routers" : `as ${full(D.root)} sees them`;
  $("summary").textContent = `${many(routers, "router")}, ${many(networks, "network")}, ` +
    `${many(D.failures.length, "failure")} ${seen}, ${many(single, "single point of failure",
      "single points of failure")}.`;
  const without = D.failures.filter(it => it.routes === null).length;
  if (without) $("left").append(make("span", {class: "note"}, "Left out: the routes of " +
    `${many(without, "failure")}, which are too many (limit ${number(D.limit)}). The counts are ` +
    "complete; ? is not known."));
  $("source").append(`All numbers are answers of ${D.program}, from an LSDB with SHA-256 ` +
    `${D.sum}. This page computes no routes and loads nothing.`);
}

/** Shows what the address of the page names. */
function recall() {
  const words = new URLSearchParams(location.hash.slice(1));
  if (THEMES.includes(words.get("theme"))) setTheme(words.get("theme"), redraw);
  if (words.has("table")) shownRouter.id = words.get("table");
  if (words.has("search")) {
    $("search").value = words.get("search");
    search(words.get("search"));
  }
  const failure = D.failures[FAILURES.get(words.get("failure"))];
  if (failure) pick(failure.edge || failure.node || null);
}

$("find").addEventListener("submit", event => {
  event.preventDefault();
  const [first] = matching || [];
  if (first && isPlaced()) closeUp(first);
});
$("search").addEventListener("input", event => { search(event.target.value); remember(); });
$("theme").addEventListener("click", () => {
  setTheme(nextTheme(), redraw);
  remember();
});
$("skip").addEventListener("click", event => {
  event.preventDefault();
  $("failures").focus();
  $("failures").scrollIntoView();
});
matchMedia("(prefers-color-scheme: dark)").addEventListener("change", redraw);
addEventListener("hashchange", recall);

// For tests: where in the window a node, or the middle of what fails, is drawn.
window.whereIs = name => {
  const failure = D.failures[FAILURES.get(name)];
  return windowPlace(D.nodes[NODES.get(name)] || failure.edge || failure.node);
};

setScene(D.nodes, D.edges);
rank(D.failures);
setTheme("system", redraw);
putInOrder();
summary();
showList();
showDetail();
placeNodes(D.nodes, D.edges, showPlaces);
recall();
