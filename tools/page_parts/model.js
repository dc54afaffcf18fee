// The data of the page, and how things are called.
const D = JSON.parse(document.getElementById("data").textContent), S = D.strings;
const KINDS = {link: "link", links: "all links", attachment: "interface", network: "network",
  router: "router"};
const isAll = D.root === "all";

const named = router => D.names[router] || router;
const full = router => D.names[router] ? `${D.names[router]} (${router})` : router;

const NODES = new Map(D.nodes.map((node, at) => [node.id, at]));
const FAILURES = new Map(D.failures.map((failure, at) => [failure.failure, at]));
const ROUTERS = D.nodes.filter(it => it.kind === "router").map(it => it.id);
ROUTERS.sort((a, b) => named(a).localeCompare(named(b), "en", {numeric: true}));

// The node or the edge that fails.
for (const node of D.nodes) if (node.failure !== null) D.failures[node.failure].node = node;
for (const edge of D.edges) if (edge.failure !== null) D.failures[edge.failure].edge = edge;

/** What a failure is called, without its kind. */
function failureName(failure) {
  if (failure.edge) return edgeName(failure.edge);
  return failure.node ? nodeName(failure.node) : failure.failure;
}

const failureOf = thing => thing.failure === null ? null : D.failures[thing.failure];

/** The routes of a failure as objects. */
function routesOf(failure) {
  const found = [], from = failure.routes || [];
  for (let at = 0; at < from.length; at += 7) {
    const [router, prefix, loss, cost, hops, newCost, newHops] = from.slice(at, at + 7);
    found.push({router: S[router], prefix: S[prefix], loss: LOSSES[loss], cost, hops: S[hops],
      newCost: newHops < 0 ? null : newCost, newHops: newHops < 0 ? null : S[newHops]});
  }
  return found;
}

/** The table of a router as objects; null where the page has none. */
function tableOf(router) {
  const from = D.tables && D.tables[router], found = [];
  if (!from) return null;
  for (let at = 0; at < from.length; at += 3)
    found.push({prefix: S[from[at]], cost: from[at + 1], hops: S[from[at + 2]]});
  return found;
}

/** Next hops, each on a line: `10.0.0.1>2.2.2.2@10.0.0.2` with the router's name. */
function hopLines(hops) {
  return hops.split(",").map(hop => {
    const found = /^([^>]+)>([^@]+)(@.*)?$/.exec(hop);
    return found ? `${found[1]}>${named(found[2])}${found[3] || ""}` : hop;
  });
}
