// The topology under mouse, fingers and keys.

/** Shows the whole area. */
function showAll() {
  const places = scene.nodes.map(it => it.at).filter(it => it);
  if (!places.length) return;
  const [xs, ys] = [0, 1].map(it => places.map(place => place[it]));
  const [left, top] = [xs, ys].map(it => it.reduce((a, b) => Math.min(a, b)));
  const [right, bottom] = [xs, ys].map(it => it.reduce((a, b) => Math.max(a, b)));
  const wide = canvas.clientWidth, high = canvas.clientHeight, edge = 70;
  view.scale = Math.min((wide - 2 * edge) / Math.max(right - left, 1),
    (high - 1.1 * edge) / Math.max(bottom - top, 1), 2);
  view.x = wide / 2 - (left + right) / 2 * view.scale;
  view.y = high / 2 - (top + bottom) / 2 * view.scale;
  drawAgain();
}

function zoom(times, x = canvas.clientWidth / 2, y = canvas.clientHeight / 2) {
  const scale = Math.max(0.02, Math.min(6, view.scale * times)), change = scale / view.scale;
  view.x = x - (x - view.x) * change;
  view.y = y - (y - view.y) * change;
  view.scale = scale;
  drawAgain();
}

/** Moves the view so that a node or an edge is in it. */
function reveal(thing) {
  const place = "id" in thing ? thing.at && onScreen(thing.at) : along(curve(thing), 0.5);
  if (!place) return;
  const wide = canvas.clientWidth, high = canvas.clientHeight;
  if (place[0] < 40 || place[1] < 30 || place[0] > wide - 40 || place[1] > high - 30) {
    view.x += wide / 2 - place[0];
    view.y += high / 2 - place[1];
  }
  drawAgain();
}

/** Moves the view to a node or an edge, so near that names have room. */
function closeUp(thing) {
  const ends = thing.at ? [thing, thing] : [scene.nodes[thing.a], scene.nodes[thing.b]];
  const [x, y] = [0, 1].map(it => (ends[0].at[it] + ends[1].at[it]) / 2);
  view.scale = Math.max(view.scale, 1);
  view.x = canvas.clientWidth / 2 - x * view.scale;
  view.y = canvas.clientHeight / 2 - y * view.scale;
  hasMovedView = true;
  drawAgain();
}

/** How far a point is from an edge, if it may be near. */
function distance(edge, [x, y]) {
  const bent = curve(edge), far = (it, place) => bent.every(part => part[it] < place - 9) ||
    bent.every(part => part[it] > place + 9);
  if (far(0, x) || far(1, y)) return Infinity;
  let least = Infinity, [fromX, fromY] = bent[0];
  for (let part = 1; part <= 12; part++) {
    const [toX, toY] = along(bent, part / 12), dx = toX - fromX, dy = toY - fromY;
    const place = ((x - fromX) * dx + (y - fromY) * dy) / (dx * dx + dy * dy || 1);
    const near = Math.max(0, Math.min(1, place));
    least = Math.min(least, Math.hypot(fromX + near * dx - x, fromY + near * dy - y));
    [fromX, fromY] = [toX, toY];
  }
  return least;
}

/** The node or the edge at a point. */
function thingAt(point) {
  if (!isPlaced()) return null;
  const roomy = hasRoom();
  for (let at = scene.nodes.length - 1; at >= 0; at--) {
    const [x, y] = onScreen(scene.nodes[at].at), [w, h] = size(scene.nodes[at], roomy);
    if (Math.abs(point[0] - x) <= w + 3 && Math.abs(point[1] - y) <= h + 3) return scene.nodes[at];
  }
  let best = null, least = 9;
  for (const edge of scene.edges) {
    const far = distance(edge, point);
    if (far < least) [best, least] = [edge, far];
  }
  return best;
}

function place(event) {
  const frame = canvas.getBoundingClientRect();
  return [event.clientX - frame.left, event.clientY - frame.top];
}

function hover(event) {
  const point = place(event), thing = thingAt(point), tip = $("tip");
  if (thing !== hovered) { hovered = thing; drawAgain(); }
  canvas.classList.toggle("over", Boolean(thing));
  tip.hidden = !thing;
  if (!thing) return;
  tip.textContent = description(thing);
  tip.style.left = Math.max(4, Math.min(point[0] + 14, canvas.clientWidth - 240)) + "px";
  tip.style.top = Math.min(point[1] + 16, canvas.clientHeight - 48) + "px";
}

const fingers = new Map();
let pressed = null, hasMoved = false;

function press(event) {
  fingers.set(event.pointerId, place(event));
  pressed = place(event);
  hasMoved = fingers.size > 1;
  canvas.setPointerCapture(event.pointerId);
}

/** One finger or the mouse moves the picture, two zoom it. */
function drag(event) {
  if (!fingers.has(event.pointerId)) return hover(event);
  const before = fingers.get(event.pointerId), now = place(event);
  if (fingers.size === 2) {
    const other = [...fingers].find(([id]) => id !== event.pointerId)[1];
    const far = it => Math.hypot(it[0] - other[0], it[1] - other[1]) || 1;
    zoom(far(now) / far(before), (now[0] + other[0]) / 2, (now[1] + other[1]) / 2);
  } else if (hasMoved || Math.hypot(now[0] - pressed[0], now[1] - pressed[1]) > 4) {
    hasMoved = true;
    view.x += now[0] - before[0];
    view.y += now[1] - before[1];
    drawAgain();
  }
  return fingers.set(event.pointerId, now);
}

function release(event) {
  const wasPressed = fingers.delete(event.pointerId);
  if (!wasPressed || hasMoved || event.type === "pointercancel") return;
  const thing = thingAt(place(event));
  pick(thing === chosen ? null : thing);
}

/** The nearest node in a direction. */
function neighbourOf(node, [dx, dy]) {
  let best = null, least = Infinity;
  for (const other of scene.nodes) {
    const x = other.at[0] - node.at[0], y = other.at[1] - node.at[1];
    const ahead = x * dx + y * dy, aside = Math.abs(x * dy - y * dx);
    if (ahead <= 0 || aside > 2 * ahead || ahead + 2 * aside >= least) continue;
    [best, least] = [other, ahead + 2 * aside];
  }
  return best;
}

const ARROWS = {ArrowLeft: [-1, 0], ArrowRight: [1, 0], ArrowUp: [0, -1], ArrowDown: [0, 1]};

/** The node where the keys are: that of the last choice. */
function base() {
  const thing = current || chosen;
  if (!thing) return null;
  return "id" in thing ? thing : scene.nodes[thing.a];
}

/** Goes through the links of the node where the keys are. */
let around = null;
function nextLink() {
  const node = around || base() || scene.nodes[0];
  const edges = scene.edges.filter(it => scene.nodes[it.a] === node || scene.nodes[it.b] === node);
  if (!edges.length) return;
  around = node;
  goTo(edges[(edges.indexOf(current) + 1) % edges.length]);
}

function goTo(thing) {
  current = thing;
  $("said").textContent = description(thing);
  reveal(thing);
}

const KEYS = {
  "+": () => zoom(1.3), "=": () => zoom(1.3), "-": () => zoom(1 / 1.3), "0": showAll,
  l: nextLink, L: nextLink,
  Enter: () => current && pick(current === chosen ? null : current),
  " ": () => current && pick(current === chosen ? null : current),
  Escape: () => { current = null; pick(null); },
};

function key(event) {
  if (event.ctrlKey || event.metaKey || event.altKey || !scene.nodes.length) return;
  if (ARROWS[event.key]) {
    const from = around || base();
    const next = from ? neighbourOf(from, ARROWS[event.key]) : scene.nodes[0];
    around = null;
    if (next) goTo(next);
  } else if (KEYS[event.key]) {
    KEYS[event.key]();
  } else {
    return;
  }
  event.preventDefault();
}

canvas.addEventListener("pointerdown", press);
canvas.addEventListener("pointermove", drag);
canvas.addEventListener("pointerup", release);
canvas.addEventListener("pointercancel", release);
canvas.addEventListener("pointerleave", () => {
  hovered = null;
  $("tip").hidden = true;
  drawAgain();
});
canvas.addEventListener("wheel", event => {
  event.preventDefault();
  zoom(Math.exp(-Math.sign(event.deltaY) * 0.18), ...place(event));
}, {passive: false});
canvas.addEventListener("keydown", key);
canvas.addEventListener("blur", () => {
  [current, around] = [null, null];
  drawAgain();
});
$("closer").addEventListener("click", () => zoom(1.3));
$("farther").addEventListener("click", () => zoom(1 / 1.3));
$("whole").addEventListener("click", showAll);

// The whole area stays in sight until the picture is moved.
let hasMovedView = false;
for (const kind of ["wheel", "pointermove"]) canvas.addEventListener(kind, event => {
  hasMovedView = hasMovedView || kind === "wheel" || event.buttons > 0;
});
function showPlaces() {
  if (!hasMovedView) showAll();
  draw();
}
new ResizeObserver(showPlaces).observe(canvas);

/** Where in the window a node, or the middle of an edge, is drawn: for tests. */
function windowPlace(thing) {
  const frame = canvas.getBoundingClientRect();
  const [x, y] = "id" in thing ? onScreen(thing.at) : along(curve(thing), 0.5);
  return [x + frame.left, y + frame.top];
}
