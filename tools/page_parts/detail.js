// What a failure does, in words and tables.
const TITLES = {link: "Link", links: "All links", attachment: "Interface", network: "Network",
  router: "Router"};
const shownRouter = {id: null, onlyChanged: true};

const lines = hops => hops === null ? ["\u2013"]
  : hopLines(hops).map(it => make("span", {class: "hop"}, it));

/** Which prefixes are lost, each with the routers that lose it. */
function byPrefix(routes) {
  const found = new Map();
  for (const it of routes) {
    if (!found.has(it.prefix)) found.set(it.prefix, []);
    found.get(it.prefix).push(named(it.router));
  }
  const one = ([prefix, routers]) => make("tr", {}, prefixCell(prefix), cell(routers.join(", ")));
  return rows([["Prefix"], ["Routers that lose it"]], [...found], one);
}

/** A part of the routes of a failure with its heading; nothing where there are none. */
function part(title, colour, routes, show) {
  if (!routes.length) return [];
  return [make("h3", {class: "words-" + colour}, `${title}: ${many(routes.length, "route")}`),
    show(routes)];
}

const longer = routes => rows([["Router"], ["Prefix"], ["Cost", true], ["After", true],
  ["Next hops after"]], routes, it => make("tr", {}, cell(named(it.router)), prefixCell(it.prefix),
  cell(number(it.cost), true), cell(number(it.newCost), true),
  make("td", {}, ...lines(it.newHops))));
const rerouted = routes => rows([["Router"], ["Prefix"], ["Before"], ["After"]], routes, it =>
  make("tr", {}, cell(named(it.router)), prefixCell(it.prefix), make("td", {}, ...lines(it.hops)),
    make("td", {}, ...lines(it.newHops))));

/** What is known of the routes of a failure. */
function changed(failure) {
  if (failure.routes) {
    const routes = routesOf(failure), of = loss => routes.filter(it => it.loss === loss);
    return [...part("Cut off", "cut", of("cut"), byPrefix),
      ...part("Longer path", "cost", of("cost"), longer),
      ...part("Other next hops at the same cost", "hops", of("hops"), rerouted),
      ...part("Gone: nothing advertises the prefix any more", "none", of("gone"), byPrefix)];
  }
  const lost = [];
  for (let at = 0; at < failure.lost.length; at += 2)
    lost.push([S[failure.lost[at]], failure.lost[at + 1]]);
  const one = ([prefix, count]) => make("tr", {}, prefixCell(prefix), cell(number(count), true));
  const first = lost.length < failure.prefixes ? `, the first ${number(lost.length)}` : "";
  return [make("p", {class: "note"}, `Left out: the ${number(changes(failure))} routes of this ` +
    "failure. They are too many for this page; the counts are complete. The program prints them:"),
  make("code", {class: "command"}, "ospfd failures --each ROUTER < area.hex"),
  ...(lost.length ? [make("h3", {class: "words-cut"},
    `Cut off: ${many(failure.prefixes, "prefix", "prefixes")}${first}`),
  rows([["Prefix"], ["Routers that lose it", true]], lost, one)] : [])];
}

/** The counts of a failure. */
function facts(failure) {
  const told = [["cut", "cut off: no path is left, though the prefix is still advertised"],
    ["gone", "gone: nothing advertises the prefix any more"],
    ["cost", "longer" + (failure.worst ? `, the worst by ${number(failure.worst)}` : "")],
    ["hops", "rerouted at the same cost"]];
  const list = make("dl", {class: "facts"});
  for (const [key, text] of told)
    list.append(make("dt", {class: failure[key] ? "words-" + key : "zero"}, number(failure[key])),
      make("dd", {}, text));
  if (isAll) list.append(make("dt", {}, number(failure.routers)),
    make("dd", {}, "routers change their tables"));
  return list;
}

/** What the LSAs say of a node or an edge. */
function facing(thing) {
  const inner = [];
  if ("id" in thing) {
    const kind = {router: "Router", network: "Network", absent: "No LSA of it"}[thing.kind];
    const flags = thing.flags ? `, flags ${thing.flags}` : "";
    const of = thing.kind === "network" ? ` ${thing.prefix}, Designated Router ` +
      `${thing.id.slice(1)} of ${full(thing.by)}` : thing.kind === "router" ? ` ${thing.id}` : "";
    inner.push(make("p", {class: "quiet"}, kind + of + flags));
    if (thing.stubs && thing.stubs.length) inner.push(make("details", {},
      make("summary", {}, `${many(thing.stubs.length, "stub network")} advertised`),
      rows([["Prefix"], ["Cost", true]], thing.stubs, ([prefix, cost]) =>
        make("tr", {}, prefixCell(prefix), cell(number(cost), true)))));
  } else {
    for (const [router, from, cost] of thing.ends)
      inner.push(make("p", {class: "quiet"}, `${full(router)}: interface ${from}, cost ${cost}`));
    if (thing.kind === "one-way") inner.push(make("p", {class: "note"},
      "Only this end has the link in its LSA, so no path uses it."));
  }
  return inner;
}

/** The table of a router before and after a failure; without one, the table. */
function tables(failure) {
  const routers = ROUTERS.filter(it => tableOf(it) !== null);
  if (!routers.length && !D.routers) return [];
  if (!routers.length) {
    const count = `${number(D.tableRoutes)} routes of ${many(D.routers, "router")}`;
    return [make("p", {class: "note"}, `Left out: the tables, with up to ${count}. ` +
      "The program prints them:"), make("code", {class: "command"}, command(failure, "ROUTER"))];
  }
  if (!routers.includes(shownRouter.id)) shownRouter.id = routers[0];
  const select = make("select", {id: "router", onchange: event => {
    shownRouter.id = event.target.value;
    remember();
    showDetail();
    $("router").focus();
  }}, ...routers.map(it => make("option", {value: it, selected: it === shownRouter.id}, full(it))));
  const choose = make("p", {class: "row"}, make("label", {for: "router"}, "Router"), select);
  const hasRoutes = failure && failure.routes;
  if (hasRoutes) choose.append(make("label", {}, make("input", {type: "checkbox", id: "changed",
    checked: shownRouter.onlyChanged, onchange: event => {
      shownRouter.onlyChanged = event.target.checked;
      showDetail();
      $("changed").focus();
    }}), " changed routes only"));
  return [make("h3", {}, hasRoutes ? "Table before and after" : "Routing table"), choose,
    hasRoutes ? both(failure, shownRouter.id) : alone(shownRouter.id)];
}

const alone = router => rows([["Prefix"], ["Cost", true], ["Next hops"]], tableOf(router), it =>
  make("tr", {}, prefixCell(it.prefix), cell(number(it.cost), true), make("td", {}, ...lines(it.hops))));

function both(failure, router) {
  const after = new Map(routesOf(failure).filter(it => it.router === router)
    .map(it => [it.prefix, it]));
  if (failure.node && failure.node.id === router)
    return make("p", {class: "quiet"}, `${full(router)} is down.`);
  const all = tableOf(router).filter(it => !shownRouter.onlyChanged || after.has(it.prefix));
  if (!all.length)
    return make("p", {class: "quiet"}, `The table of ${full(router)} does not change.`);
  const one = it => {
    const now = after.get(it.prefix) || {newCost: it.cost, newHops: it.hops};
    const then = now.newCost === null
      ? [make("span", {class: "words-cut"}, now.loss === "cut" ? "cut off" : "gone")]
      : [make("span", {class: "hop"}, number(now.newCost)), ...lines(now.newHops)];
    return make("tr", {class: after.has(it.prefix) && !shownRouter.onlyChanged ? "changed" : null},
      prefixCell(it.prefix), make("td", {}, make("span", {class: "hop"}, number(it.cost)),
        ...lines(it.hops)), make("td", {}, ...then));
  };
  return rows([["Prefix"], ["Before"], ["After"]], all, one);
}

/** The command that prints the tables with a failure. */
function command(failure, router) {
  return `ospfd table ${router}` + (failure ? ` --without ${failure.failure}` : "") + " < area.hex";
}

function nothing() {
  const single = D.failures.filter(it => it.cut > 0).length;
  const told = single ? `${many(single, "failure cuts", "failures cut")} off prefixes. They are ` +
    "marked with ! and come first in the list." : "No single failure cuts off a prefix.";
  return [make("h2", {id: "detail-title"}, "Choose what fails"),
    make("p", {}, "Click a router, a link, a network or an interface in the drawing, or a line " +
      "of the list."), make("p", {}, told), ...tables(null)];
}

function showDetail() {
  const panel = $("detail"), failure = chosen && failureOf(chosen);
  if (!chosen) return panel.replaceChildren(...nothing());
  const name = thingName(chosen);
  const title = failure ? `${TITLES[failure.kind]} ${name} fails` : name;
  const inner = [make("h2", {id: "detail-title"}, title)];
  if (failure && failure.cut) inner.push(make("p", {}, make("span", {class: "spof"},
    "! Single point of failure")));
  if (failure) {
    inner.push(facts(failure), ...facing(chosen));
    if (failure.unknown_costs) inner.push(make("p", {class: "note"}, "The LSAs do not show the " +
      `cost of ${failure.unknown_costs.join(", ")}: see ospfd-failures(1), LIMITS.`));
    inner.push(...changed(failure), ...tables(failure), make("h3", {}, "The same from the program"),
      make("code", {class: "command"}, command(failure, shownRouter.id || "all")));
  } else {
    inner.push(...facing(chosen), make("p", {}, isAll || chosen.id !== D.root
      ? "Its failure has no name of its own." : "The page shows what others do to this router."));
  }
  return panel.replaceChildren(...inner);
}
