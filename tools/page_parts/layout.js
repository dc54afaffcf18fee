// Places nodes where Graphviz did not: edges pull, and each node pushes away those near it.

/** Numbers that are the same each time. */
function dice(seed) {
  return () => (seed = (seed * 1103515245 + 12345) % 2147483648) / 2147483648;
}

/** Begins on rings round the node of most edges, by how many edges away a node is. */
function begin(nodes, near) {
  const random = dice(7), order = nodes.map((_, at) => at), seen = new Set();
  order.sort((a, b) => near[b].length - near[a].length || a - b);
  let ring = 0;
  for (const root of order) {
    let wave = seen.has(root) ? [] : [root];
    seen.add(root);
    while (wave.length) {
      wave.forEach((at, place) => {
        const angle = 2 * Math.PI * (place + random() / 2) / wave.length;
        nodes[at].at = [ring * 110 * Math.cos(angle), ring * 110 * Math.sin(angle)];
      });
      ring += 1;
      const next = [];
      for (const at of wave) for (const other of near[at]) if (!seen.has(other)) {
        seen.add(other);
        next.push(other);
      }
      wave = next;
    }
  }
}

/** The cells of a grid that have nodes, each with its nodes and their middle. */
function cells(nodes, size) {
  const found = new Map();
  nodes.forEach((node, at) => {
    const [column, row] = node.at.map(it => Math.floor(it / size)), key = column + ":" + row;
    if (!found.has(key)) found.set(key, {column, row, inside: [], middle: [0, 0]});
    const cell = found.get(key);
    cell.inside.push(at);
    for (const it of [0, 1]) cell.middle[it] += node.at[it];
  });
  for (const cell of found.values()) cell.middle = cell.middle.map(it => it / cell.inside.length);
  return [...found.values()];
}

/** Pushes a node away from a place, with the force of so many nodes. */
function pushFrom(move, at, place, force, nudge) {
  const dx = at[0] - place[0] || nudge * 0.01, dy = at[1] - place[1];
  const far = Math.max(dx * dx + dy * dy, 1);
  move[0] += dx / far * force;
  move[1] += dy / far * force;
}

/** Pushes nodes apart: each from those in its cell and in the cells beside it, and from each other
 * cell as a whole. */
function push(nodes, moves, length) {
  const all = cells(nodes, 2.5 * length), force = length * length;
  for (const {column, row, inside} of all) for (const cell of all) {
    const isNear = Math.abs(cell.column - column) < 2 && Math.abs(cell.row - row) < 2;
    for (const at of inside) {
      if (!isNear) pushFrom(moves[at], nodes[at].at, cell.middle, force * cell.inside.length, 1);
      else for (const other of cell.inside)
        if (other !== at) pushFrom(moves[at], nodes[at].at, nodes[other].at, force, at - other);
    }
  }
}

function pull(nodes, moves, edges, length) {
  for (const [a, b] of edges) {
    const dx = nodes[b].at[0] - nodes[a].at[0], dy = nodes[b].at[1] - nodes[a].at[1];
    const force = Math.hypot(dx, dy) / length;
    moves[a][0] += dx * force; moves[a][1] += dy * force;
    moves[b][0] -= dx * force; moves[b][1] -= dy * force;
  }
}

/** One step: no node moves farther than a distance, which falls to nothing. */
function step(nodes, edges, length, most) {
  const moves = nodes.map(() => [0, 0]);
  push(nodes, moves, length);
  pull(nodes, moves, edges, length);
  nodes.forEach((node, at) => {
    const [dx, dy] = moves[at], far = Math.hypot(dx, dy) || 1, go = Math.min(far, most) / far;
    node.at = [node.at[0] + dx * go, node.at[1] + dy * go];
  });
}

/** Gives all nodes places, a few steps between two pictures, and calls back each time: at last with
 * true. */
function placeNodes(nodes, edges, show) {
  if (nodes.every(it => it.at)) return show(true);
  const near = nodes.map(() => []), pairs = edges.map(it => [it.a, it.b]);
  for (const [a, b] of pairs) { near[a].push(b); near[b].push(a); }
  begin(nodes, near);
  const length = 130, steps = nodes.length > 300 ? 120 : 400;
  let done = 0;
  const some = () => {
    const until = performance.now() + 40;
    while (done < steps && performance.now() < until) {
      step(nodes, pairs, length, 3 * length * (1 - done / steps) ** 2 + 1);
      done += 1;
    }
    show(done === steps);
    if (done < steps) setTimeout(some);
  };
  return some();
}
