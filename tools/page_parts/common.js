// What all pages share: elements, numbers, and the theme.
const $ = id => document.getElementById(id);
const THEMES = ["system", "light", "dark"];

/** An element with its attributes and what is in it. Texts stay texts. */
function make(tag, words = {}, ...inner) {
  const made = document.createElement(tag);
  for (const [key, value] of Object.entries(words)) {
    if (key.startsWith("on")) made.addEventListener(key.slice(2), value);
    else if (value !== null && value !== false) made.setAttribute(key, value === true ? "" : value);
  }
  made.append(...inner.filter(it => it !== null));
  return made;
}

const button = (text, onclick) => make("button", {type: "button", onclick}, text);
const number = value => Number(value).toLocaleString("en");
const many = (count, one, more = one + "s") => `${number(count)} ${count === 1 ? one : more}`;

const cell = (value, isCount) => make("td", {class: isCount ? "n" : null}, value);

/** A prefix, which is one word. */
const prefixCell = prefix => make("td", {class: "prefix"}, prefix);

const ROWS = 100;
/** The rows of a table, the first of them at first. */
function rows(head, all, rowOfOne) {
  const body = make("tbody", {}, ...all.slice(0, ROWS).map(rowOfOne));
  const cells = head.map(([title, isCount]) =>
    make("th", {scope: "col", class: isCount ? "n" : null}, title));
  const made = make("div", {class: "wide"}, make("table", {},
    make("thead", {}, make("tr", {}, ...cells)), body));
  if (all.length > ROWS) {
    const onclick = event => {
      body.append(...all.slice(ROWS).map(rowOfOne));
      event.currentTarget.remove();
    };
    made.append(make("button", {type: "button", onclick}, `Show all ${number(all.length)} rows`));
  }
  return made;
}

const theme = () => document.documentElement.dataset.theme || "system";

/** Makes the page light, dark, or as the system is, and calls back to draw again. */
function setTheme(to, redraw) {
  if (to === "system") delete document.documentElement.dataset.theme;
  else document.documentElement.dataset.theme = to;
  $("theme").textContent = "Theme: " + to;
  redraw();
}

const nextTheme = () => THEMES[(THEMES.indexOf(theme()) + 1) % THEMES.length];
