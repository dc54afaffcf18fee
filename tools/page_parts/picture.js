// How a topology is drawn on the canvas. A page says what is in the scene, and how each part of it
// looks: `lookOf` and `haloOf`.
const canvas = $("map"), pen = canvas.getContext("2d");
const view = {x: 0, y: 0, scale: 1};
const scene = {nodes: [], edges: [], bends: new Map(), order: []};
// A name has room where each node in sight has so many square pixels. Costs are drawn on at most so
// many edges.
const ROOM = 5200, MOST_COSTS = 90;
const COLOURS = ["back", "ink", "quiet", "rule", "chosen", "box", "halo", "cut", "cost", "hops",
  "none", "link", "cost-few", "hops-few", "came", "went"];
let chosen = null, current = null, hovered = null, matching = null, colours = {};

function readColours() {
  const style = getComputedStyle(document.documentElement);
  for (const it of COLOURS) colours[it] = style.getPropertyValue("--" + it).trim();
  colours.steps = {};
  for (const it of ["cost", "hops"]) colours.steps[it] = mixed(colours[it + "-few"], colours[it]);
}

/** Colours from one to another, both as #rrggbb. */
function mixed(from, to, count = 9) {
  const parts = it => [1, 3, 5].map(at => parseInt(it.slice(at, at + 2), 16));
  const [a, b] = [parts(from), parts(to)];
  return Array.from({length: count}, (_, at) =>
    `rgb(${a.map((it, place) => Math.round(it + (b[place] - it) * at / (count - 1))).join(",")})`);
}

/** An element of a picture with its attributes. */
function shape(name, words = {}, ...inner) {
  const made = document.createElementNS("http://www.w3.org/2000/svg", name);
  for (const [key, value] of Object.entries(words)) made.setAttribute(key, value);
  made.append(...inner);
  return made;
}

/** Puts nodes and edges into the scene; edges name their nodes by their places. Several edges of
 * one pair are bent apart. */
function setScene(nodes, edges) {
  Object.assign(scene, {nodes, edges, bends: new Map(), order: edges});
  const pairs = new Map();
  for (const edge of edges) {
    const key = Math.min(edge.a, edge.b) + " " + Math.max(edge.a, edge.b);
    if (!pairs.has(key)) pairs.set(key, []);
    pairs.get(key).push(edge);
  }
  for (const those of pairs.values()) those.forEach((edge, at) => scene.bends.set(edge,
    (at - (those.length - 1) / 2) * 34 * (edge.a < edge.b ? 1 : -1)));
}

/** Draws what weighs most last, and so on top. */
function putInOrder() {
  const weights = new Map(scene.edges.map(it => [it, lookOf(it).weight]));
  scene.order = [...scene.edges].sort((a, b) => weights.get(a) - weights.get(b));
}

const onScreen = ([x, y]) => [x * view.scale + view.x, y * view.scale + view.y];

/** The two ends of an edge and the point that bends it, on the screen. */
function curve(edge) {
  const [a, b] = [onScreen(scene.nodes[edge.a].at), onScreen(scene.nodes[edge.b].at)];
  const far = Math.hypot(b[0] - a[0], b[1] - a[1]) || 1;
  const bend = 2 * Math.min(scene.bends.get(edge) * Math.max(view.scale, 0.5), far / 2);
  const middle = [(a[0] + b[0]) / 2 - (b[1] - a[1]) / far * bend,
    (a[1] + b[1]) / 2 + (b[0] - a[0]) / far * bend];
  return [a, middle, b];
}

const along = ([a, m, b], part) => [0, 1].map(it =>
  (1 - part) ** 2 * a[it] + 2 * part * (1 - part) * m[it] + part ** 2 * b[it]);

/** Whether a curve is out of sight. */
function isAside([a, m, b]) {
  const beyond = (it, most) => (a[it] < -20 && m[it] < -20 && b[it] < -20) ||
    (a[it] > most && m[it] > most && b[it] > most);
  return beyond(0, canvas.clientWidth + 20) || beyond(1, canvas.clientHeight + 20);
}

/** Whether boxes with names have room, and how high their letters are then. */
let letters = 12;
const nameFont = () => `${letters}px system-ui, sans-serif`;
function hasRoom() {
  const wide = canvas.clientWidth, high = canvas.clientHeight;
  let seen = 0;
  for (const node of scene.nodes) {
    const [x, y] = onScreen(node.at);
    if (x > 0 && y > 0 && x < wide && y < high) seen += 1;
  }
  const room = wide * high / Math.max(seen, 1);
  letters = Math.max(9, Math.min(12, 12 * Math.sqrt(room / 14000)));
  return room > ROOM;
}

const isOnTop = thing => thing === chosen || thing === hovered || thing === current;

/** The box of a node: half its width and half its height. */
function size(node, roomy) {
  if (!roomy && !isOnTop(node)) {
    const radius = Math.max(2.5, Math.min(7, 7 * view.scale)) + (lookOf(node).mark !== null);
    return [radius, radius];
  }
  pen.font = nameFont();
  return [pen.measureText(nodeName(node)).width / 2 + 0.7 * letters, letters];
}

const isFaint = thing => matching !== null && !matching.has(thing) && thing !== chosen;

function strokeCurve([a, m, b], isStraight, colour, wide, dashes) {
  pen.beginPath();
  pen.moveTo(a[0], a[1]);
  if (isStraight) pen.lineTo(b[0], b[1]);
  else pen.quadraticCurveTo(m[0], m[1], b[0], b[1]);
  if (dashes.length) pen.setLineDash(dashes);
  pen.strokeStyle = colour;
  pen.lineWidth = wide;
  pen.stroke();
  if (dashes.length) pen.setLineDash([]);
}

function drawEdge(edge, roomy) {
  const bent = curve(edge);
  if (isAside(bent)) return;
  const look = lookOf(edge), isStraight = scene.bends.get(edge) === 0;
  const line = (colour, more) => strokeCurve(bent, isStraight, colour, look.width + more, []);
  pen.globalAlpha = isFaint(edge) ? 0.15 : 1;
  if (edge === hovered || edge === current) line(colours.link, 6);
  if (edge === chosen) line(colours.chosen, 10);
  strokeCurve(bent, isStraight, look.colour, look.width, look.dashes);
  if (look.mark && (roomy || edge === chosen)) badge(along(bent, 0.5), look);
  if (look.isOut && edge === chosen) cross(along(bent, 0.5));
  pen.globalAlpha = 1;
}

function text(words, [x, y], fill) {
  pen.textAlign = "center";
  pen.textBaseline = "middle";
  pen.lineWidth = 4;
  pen.lineJoin = "round";
  pen.strokeStyle = colours.halo;
  pen.strokeText(words, x, y);
  pen.fillStyle = fill;
  pen.fillText(words, x, y);
}

/** The mark of a single point of failure or of a change: not by colour alone. */
function badge([x, y], {mark, markColour}) {
  pen.beginPath();
  pen.arc(x, y, 8, 0, 7);
  pen.fillStyle = markColour;
  pen.fill();
  pen.font = "bold 12px system-ui, sans-serif";
  pen.textAlign = "center";
  pen.textBaseline = "middle";
  pen.fillStyle = colours.back;
  pen.fillText(mark, x, y + 0.5);
}

function cross([x, y]) {
  pen.strokeStyle = colours.ink;
  pen.lineWidth = 3;
  for (const side of [-1, 1]) {
    pen.beginPath();
    pen.moveTo(x - 8, y - 8 * side);
    pen.lineTo(x + 8, y + 8 * side);
    pen.stroke();
  }
}

/** The cost of an edge at the end whose cost it is, or how it changes. */
function drawCosts(edge) {
  const bent = curve(edge), [a, , b] = bent;
  if (isFaint(edge) || isAside(bent) || Math.hypot(a[0] - b[0], a[1] - b[1]) < 110) return;
  pen.font = "11px system-ui, sans-serif";
  for (const [router, , cost, change] of edge.ends)
    text(change || String(cost), along(bent, router === scene.nodes[edge.a].id ? 0.3 : 0.7), colours.quiet);
}

function drawNode(node, roomy) {
  const [x, y] = onScreen(node.at), [w, h] = size(node, roomy);
  if (x + w < -20 || y < -40 || x - w > canvas.clientWidth + 20 || y > canvas.clientHeight + 40)
    return;
  const look = lookOf(node), halo = haloOf(node), isSmall = w === h;
  const outline = grow => {
    pen.beginPath();
    const round = node.kind === "network" ? h + grow : isSmall ? w + grow : 4 + grow / 2;
    pen.roundRect(x - w - grow, y - h - grow, 2 * (w + grow), 2 * (h + grow), round);
  };
  pen.globalAlpha = isFaint(node) ? 0.2 : 1;
  if (halo) { outline(isSmall ? 5 : 0.65 * letters); pen.fillStyle = halo; pen.fill(); }
  if (node === hovered || node === current) { outline(4); pen.fillStyle = colours.link; pen.fill(); }
  outline(0);
  pen.fillStyle = isSmall ? look.colour : node === chosen ? colours.chosen : colours.box;
  pen.fill();
  if (look.dashes.length) pen.setLineDash([4, 4]);
  pen.lineWidth = isSmall ? 1 : Math.min(look.width, 5);
  pen.strokeStyle = isSmall ? colours.back : look.colour;
  pen.stroke();
  if (look.dashes.length) pen.setLineDash([]);
  if (!isSmall) {
    pen.font = nameFont();
    pen.textAlign = "center";
    pen.textBaseline = "middle";
    pen.fillStyle = colours.ink;
    pen.fillText(nodeName(node), x, y + 0.5);
    if (look.mark) badge([x + w, y - h], look);
  }
  if (look.isOut && node === chosen) cross([x - w, y - h]);
  pen.globalAlpha = 1;
}

const isPlaced = () => scene.nodes.every(it => it.at);

// The last whole picture, without what the mouse or the keys are at, and where the view was. In a
// large area it is moved and zoomed until the view rests: drawing all of it takes longer than the
// browser has for a picture.
const MANY_PARTS = 1200, REST = 120;
const kept = {canvas: document.createElement("canvas"), x: 0, y: 0, scale: 0};
let isAsked = false, isStale = true, resting = 0;

function keep() {
  Object.assign(kept, view);
  Object.assign(kept.canvas, {width: canvas.width, height: canvas.height});
  kept.canvas.getContext("2d").drawImage(canvas, 0, 0);
}

/** Draws the kept picture where the view is now; whether that does. */
function paintKept(wide, high) {
  const times = view.scale / kept.scale, isMoved = times !== 1 || view.x !== kept.x ||
    view.y !== kept.y;
  if (!kept.scale || kept.canvas.width !== canvas.width || kept.canvas.height !== canvas.height ||
    isStale && !isMoved) return false;
  pen.drawImage(kept.canvas, view.x - kept.x * times, view.y - kept.y * times, wide * times,
    high * times);
  if (isMoved) {
    clearTimeout(resting);
    resting = setTimeout(() => { kept.scale = 0; draw(); }, REST);
  }
  return true;
}

/** Draws the whole picture. */
function paintAll() {
  const roomy = hasRoom(), top = [hovered, current];
  [hovered, current] = [null, null];
  for (const edge of scene.order) if (edge !== chosen) drawEdge(edge, roomy);
  if (chosen && "a" in chosen) drawEdge(chosen, roomy);
  if (roomy) {
    const seen = scene.edges.filter(it => !isAside(curve(it)));
    if (seen.length <= MOST_COSTS) seen.forEach(drawCosts);
  }
  for (const node of scene.nodes) if (node !== chosen) drawNode(node, roomy);
  if (chosen && "id" in chosen) drawNode(chosen, roomy);
  isStale = false;
  keep();
  [hovered, current] = top;
}

/** Draws what the mouse or the keys are at, over the rest. */
function paintTop() {
  const roomy = hasRoom(), tops = [hovered, current].filter(it => it);
  for (const edge of tops.filter(it => "a" in it)) {
    drawEdge(edge, roomy);
    for (const end of [edge.a, edge.b]) drawNode(scene.nodes[end], roomy);
  }
  for (const node of tops.filter(it => "id" in it)) drawNode(node, roomy);
}

function paint() {
  const ratio = window.devicePixelRatio || 1, wide = canvas.clientWidth, high = canvas.clientHeight;
  if (canvas.width !== Math.round(wide * ratio)) canvas.width = Math.round(wide * ratio);
  if (canvas.height !== Math.round(high * ratio)) canvas.height = Math.round(high * ratio);
  pen.setTransform(ratio, 0, 0, ratio, 0, 0);
  pen.clearRect(0, 0, wide, high);
  if (!isPlaced()) return;
  const isLarge = scene.nodes.length + scene.edges.length > MANY_PARTS;
  if (!isLarge || !paintKept(wide, high)) paintAll();
  paintTop();
}

/** Draws with the next picture of the browser. `drawAgain` is enough where only the view moved, or
 * what the mouse or the keys are at changed. */
function draw() {
  isStale = true;
  drawAgain();
}

function drawAgain() {
  if (isAsked) return;
  isAsked = true;
  requestAnimationFrame(() => { isAsked = false; paint(); });
}
