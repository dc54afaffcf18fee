// An area as the page shows it: its nodes, its links, and what each failure changes. All of it is
// taken from answers of the library; the page computes no routes.
const WORDS = {lost: "cut", longer: "cost", shorter: "cost", rerouted: "hops"};
const ENDS = /^([0-9.]+)-([0-9.]+)(?:@(.+))?$/;
// No router has this Router ID, so a comparison at it lists no routes.
const NOBODY = 0;

/** The answer of a call that must not be refused. */
function answerOf(library, ...words) {
  const answer = library.call(...words);
  if (answer.status > 1) throw new Error(answer.warnings.trim() || `status ${answer.status}`);
  return answer;
}

/** The names of all that may fail alone, in the order of the library. */
function elementsOf(library, lsas) {
  const lines = answerOf(library, "ospf_diff_at", "", lsas, NOBODY).text.split("\n");
  return lines.filter(it => it.startsWith("+ ")).map(it => it.slice(2));
}

/** What kind of element a name is of. */
function kindOf(name) {
  if (ENDS.test(name)) return "link";
  if (name.startsWith("@")) return "network";
  return name.includes("@") ? "attachment" : "router";
}

/** Whether an address is in a prefix. */
function isIn(address, prefix) {
  const [network, bits] = prefix.split("/"), size = 2 ** (32 - Number(bits));
  return Math.floor(numberOf(address) / size) === Math.floor(numberOf(network) / size);
}

class Area {
  constructor(library, lsas) {
    Object.assign(this, {lsas, nodes: new Map(), list: [], edges: [], pairs: new Map(),
      failing: new Map()});
    this.listed = JSON.parse(answerOf(library, "ospf_lsas", lsas, true).text);
    this.elements = elementsOf(library, lsas);
    for (const lsa of this.listed) this.addLsa(lsa);
    for (const name of this.elements) this.addElement(name);
    for (const lsa of this.listed) for (const link of lsa.links || []) this.addEnd(lsa.router, link);
    this.routers = this.listed.filter(it => it.lsa === "router").map(it => it.router);
  }

  node(id) {
    if (!this.nodes.has(id)) {
      this.nodes.set(id, {id, kind: "absent", fails: null, place: this.list.length});
      this.list.push(this.nodes.get(id));
    }
    return this.nodes.get(id);
  }

  addLsa(lsa) {
    if (lsa.lsa === "router") this.node(lsa.router).kind = "router";
    else if (!lsa.unused)
      Object.assign(this.node("@" + lsa.id), {kind: "network", prefix: lsa.prefix});
  }

  /** Gives a node its failure, or adds the link that fails. */
  addElement(name) {
    const kind = kindOf(name);
    if (kind === "router" || kind === "network") {
      this.node(name).fails = name;
      this.failing.set(name, this.node(name));
    } else {
      const [, one, other, subnet] = kind === "link" ? ENDS.exec(name) : [null, ...name.split("@")];
      const to = kind === "link" ? other : "@" + other;
      this.failing.set(name, this.addEdge(one, to, {kind: kind === "link" ? "link" : "interface",
        fails: name, subnet: subnet || null}));
    }
  }

  edgesOf(one, other) {
    const key = [one, other].sort().join(" ");
    if (!this.pairs.has(key)) this.pairs.set(key, []);
    return this.pairs.get(key);
  }

  addEdge(one, other, edge) {
    const [a, b] = [one, other].map(it => this.node(it).place);
    Object.assign(edge, {a, b, ends: []});
    this.edges.push(edge);
    this.edgesOf(one, other).push(edge);
    return edge;
  }

  /** Gives a link of a router-LSA to its edge: that with both ends whose subnet has its address. */
  addEnd(router, link) {
    if (link.link !== "router" && link.link !== "network") return;
    const to = link.link === "router" ? link.to : "@" + link.to;
    const fits = it => it.kind !== "one-way" && (!it.subnet || isIn(link.from, it.subnet));
    const found = link.one_way ? null : this.edgesOf(router, to).find(fits);
    const kind = link.one_way ? "one-way" : link.link === "router" ? "link" : "interface";
    const edge = found || this.addEdge(router, to, {kind, fails: null, subnet: null});
    edge.ends.push([router, link.from, link.cost]);
  }

  /** The node or the edge of a name: that of its failure, or of a node. */
  thing(name) {
    return this.failing.get(name) || this.nodes.get(name) || null;
  }

  /** The prefixes that some LSA advertises: a network-LSA only while a router is attached to it
   * both ways. */
  prefixes() {
    const stubs = this.listed.flatMap(it => it.links || []).filter(it => it.link === "stub");
    const networks = this.listed.filter(it => it.lsa === "network" &&
      it.attached.some(other => !other.one_way));
    return new Set([...stubs, ...networks].map(it => it.prefix));
  }
}

/** What a comparison says: the routes that differ, and its last line. */
function changesIn(text) {
  const lines = text.trimEnd().split("\n");
  const routes = lines.flatMap(line => {
    const found = /^([0-9.]+) (lost|gained|longer|shorter|rerouted) (\S+) ?(.*)$/.exec(line);
    return found ? [{router: found[1], word: found[2], prefix: found[3], more: found[4]}] : [];
  });
  return {routes, sums: lines[lines.length - 1], lines};
}

/** A failure of which nothing is known yet, or that changes nothing. */
const unchanged = failure => ({failure, cut: 0, gone: 0, cost: 0, hops: 0, hit: {}, routers: 0});
// From what is worst for a router to what is no harm: its own prefixes go with what fails.
const BY_LOSS = ["cut", "cost", "hops", "gone"];

/** Notes that a failure does something to a router. */
function strike(harm, router, loss) {
  const known = harm.hit[router];
  if (!known) harm.routers += 1;
  if (!known || BY_LOSS.indexOf(loss) < BY_LOSS.indexOf(known)) harm.hit[router] = loss;
}

/** What the failure of an element changes at the routers that stay: how many routes are cut off
 * (no path is left, though the prefix is still advertised), gone with what fails, longer, or
 * rerouted at the same cost. */
function harmOf(library, lsas, name) {
  const after = answerOf(library, "ospf_edit", lsas, name + "\n", "", "").text;
  const {routes} = changesIn(answerOf(library, "ospf_diff", lsas, after).text);
  const listed = JSON.parse(answerOf(library, "ospf_lsas", after, true).text);
  const left = Area.prototype.prefixes.call({listed}), harm = unchanged(name);
  for (const route of routes) {
    const loss = WORDS[route.word];
    if (!loss || route.router === name) continue;
    const told = loss === "cut" && !left.has(route.prefix) ? "gone" : loss;
    harm[told] += 1;
    strike(harm, route.router, told);
  }
  return harm;
}

// What a failure changes in the table of one router, as JSON (bindings/c/ospf.h).
const AS_JSON = {form: 2, carrier: 0, each: false, strict: false};

/** What each failure changes at one router: those that change something. */
function harmsAt(library, lsas, router) {
  const answer = answerOf(library, "ospf_failures_at", lsas, numberOf(router), AS_JSON);
  return JSON.parse(answer.text || "[]").flatMap(it => {
    const loss = BY_LOSS.find(key => it[key]);
    return loss ? [{...unchanged(it.failure), cut: it.cut, gone: it.gone, cost: it.cost,
      hops: it.hops, hit: {[router]: loss}, routers: 1}] : [];
  });
}

/** Adds what a failure does to other routers. */
function add(harm, more) {
  for (const loss of BY_LOSS) harm[loss] += more[loss];
  harm.routers += more.routers;
  if (harm.hit && more.hit) Object.assign(harm.hit, more.hit);
  else harm.hit = null;
}

const byHarm = (a, b) => b.cut - a.cut || b.cost - a.cost || b.hops - a.hops || b.gone - a.gone;
