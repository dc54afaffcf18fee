// A simulated area: a script and configurations in, what the program prints out.
const NAME = /^=== (.+)$/m;

/** Configurations as a text, each after a line with its name. */
const joined = files => Object.entries(files).map(([name, text]) => `=== ${name}\n${text}`).join("");

/** The configurations of such a text. */
function separated(text) {
  const parts = text.split(NAME).slice(1), files = [];
  for (let at = 0; at < parts.length; at += 2)
    files.push({name: parts[at].trim(), text: parts[at + 1].replace(/^\n/, "")});
  return files;
}

function runScript() {
  attempt(() => {
    const began = performance.now();
    const files = separated($("configs").value);
    const {text, warnings, status} = library.call("ospf_sim", $("script").value, files, false);
    $("printed").textContent = text + warnings;
    $("run-said").textContent = `status ${status}, ${Math.round(performance.now() - began)} ms`;
  });
}

function givePlay(name) {
  $("script").value = DATA.plays[name].script;
  $("configs").value = joined(DATA.plays[name].files);
  $("printed").textContent = "";
  $("run-said").textContent = "";
}

function startPlays() {
  $("play").replaceChildren(...Object.keys(DATA.plays).map(it => make("option", {value: it}, it)));
  givePlay($("play").value);
}

$("play").addEventListener("change", event => givePlay(event.target.value));
$("run").addEventListener("click", runScript);
start().catch(error => fault(error.message));
