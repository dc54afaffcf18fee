// What nodes and edges are called. A page gives `named`, the name of a router.
// From no harm to a router to the worst.
const SEVERE = ["none", "hops", "cost", "cut"];

/** What a node is called: a router by its name, a network by its prefix. */
function nodeName(node) {
  if (node.prefix) return node.prefix;
  return node.id.startsWith("@") ? "network " + node.id.slice(1) : named(node.id);
}

function edgeName(edge) {
  const [a, b] = [scene.nodes[edge.a], scene.nodes[edge.b]].map(nodeName);
  if (edge.kind === "interface") return `${a} to ${b}`;
  if (edge.kind === "one-way") return `${a} to ${b}, one-way`;
  const subnet = edge.subnet === "0.0.0.0/8" ? "unnumbered" : edge.subnet;
  return `${a} \u2013 ${b}` + (subnet ? ` (${subnet})` : "");
}

const thingName = thing => "id" in thing ? nodeName(thing) : edgeName(thing);
