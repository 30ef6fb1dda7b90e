// The page: it posts lines, and shows what comes back.
"use strict";

const $ = (id) => document.getElementById(id);
const TOKEN = document.querySelector("meta[name=token]").content;
const DEFAULT = "__sled__default";
let scenes = [];
let state = null;
// Whether a request is on its way, and which crash was asked for last.
let busy = false;
let wanted = null;
// Where the slider was put, or nothing while it stands at all; and the actions among which it was put.
let slid = null;
let slidOver = [];

// An element with its text or its children.
function make(name, inside = [], attributes = {}) {
  const it = document.createElement(name);
  it.append(...[inside].flat());
  for (const [key, value] of Object.entries(attributes)) it.setAttribute(key, value);
  return it;
}

function fill(id, children) {
  $(id).replaceChildren(...children);
}

function count(number, what) {
  return `${number} ${what}${number === 1 ? "" : "s"}`;
}

// Text in which `this` is code.
function coded(text) {
  return text.split(/`([^`]*)`/).map((piece, at) => (at % 2 ? make("code", piece) : piece));
}

function tell(why) {
  $("why").hidden = !why;
  fill("why", coded(why || ""));
}

const isNarrow = () => window.innerWidth < 700;
// Whether each page is to say how the store keeps it.
let isKeptShown = false;

async function post(path, asked) {
  const value = { ...asked, narrow: isNarrow(), kept: isKeptShown };
  const answer = await fetch(path, { method: "POST", headers: { "Content-Type": "application/json", "X-Token": TOKEN }, body: JSON.stringify(value) });
  const told = await answer.json();
  if (!answer.ok) throw new Error(told.why);
  return told;
}

// Posts what changes something, one request after the other, and shows what comes of it.
async function act(path, value) {
  if (busy) return false;
  busy = true;
  document.body.setAttribute("aria-busy", "true");
  let isDone = false;
  try {
    state = await post(path, value);
    show();
    tell(state.why);
    isDone = true;
  } catch (fault) {
    tell(fault instanceof TypeError ? "The page does not answer: was ./run --page ended?" : fault.message);
  }
  busy = false;
  document.body.removeAttribute("aria-busy");
  return isDone;
}

const run = (...lines) => act("/run", { lines });
const type = (line) => act("/type", { lines: [line] });
const start = (lines) => act("/start", { lines });
const texts = () => state.lines.map((it) => it.line);
const isComment = (line) => line.startsWith("#");
// Text as a word of the shell, which may hold any bytes between quotes.
const quoted = (text) => `"${text.replace(/["\\]/g, "\\$&")}"`;

// Scenes. Where one is, is said by the lines alone: they are a beginning of its own.

function place() {
  const lines = texts();
  for (const scene of scenes) {
    const all = scene.parts.flat();
    if (lines.length && lines.length <= all.length && lines.every((line, at) => line === all[at])) {
      let end = 0;
      const part = scene.parts.findIndex((part) => (end += part.length) >= lines.length);
      return { scene, part, end, all, isWhole: end === lines.length };
    }
  }
  return null;
}

function begin(scene) {
  slid = null;
  return start(scene.parts[0]);
}

// What is scrolled to, or has the focus, lies below the text that stays at the top.
function pad() {
  const text = $("story-text");
  document.documentElement.style.scrollPaddingTop = `${$("story").offsetHeight + 8}px`;
  if (text.scrollHeight > text.clientHeight) text.tabIndex = 0;
  else text.removeAttribute("tabindex");
}

// What a part speaks of is brought into view, below its text, which stays at the top: the crash that it names, or else the tree.
async function told(isDone) {
  const here = (await isDone) && place();
  if (!here) return;
  const part = here.scene.parts[here.part].filter(isComment).join(" ");
  pad();
  const it = $(part.includes("If it crashed") ? "crash" : "trees");
  const top = it.getBoundingClientRect().top;
  const under = $("story").getBoundingClientRect().bottom;
  if (top < under || top > window.innerHeight - Math.min(it.offsetHeight, window.innerHeight * 0.55)) it.scrollIntoView();
}

// The part of a scene where one was last; a part of which some lines were run counts as well.
function remember(here) {
  sessionStorage.setItem("left", JSON.stringify([here.scene.name, here.part]));
}

function remembered() {
  const [name, part] = JSON.parse(sessionStorage.getItem("left") || "[]");
  const scene = scenes.find((it) => it.name === name);
  return scene && scene.parts[part] ? { scene, part } : null;
}

const upTo = (scene, part) => scene.parts.slice(0, part + 1).flat();

function next() {
  const here = place();
  if (!here) return;
  const till = here.isWhole ? here.end + (here.scene.parts[here.part + 1] || []).length : here.end;
  if (till > state.lines.length) told(run(...here.all.slice(state.lines.length, till)));
}

function back() {
  const here = place() || remembered();
  if (!here) return;
  const isAway = !place();
  if (isAway || here.part > 0 || !here.isWhole) told(start(upTo(here.scene, isAway ? here.part : Math.max(here.part - 1, 0))));
}

// The text of a part, in which "this" is set apart.
function saying(part) {
  const text = part.filter(isComment).map((line) => line.replace(/^#\s*/, "")).join(" ");
  return text.split(/"([^"]*)"/).map((piece, at) => (at % 2 ? make("b", piece) : piece));
}

function showStory() {
  const here = place();
  if (here) remember(here);
  const left = here || remembered();
  for (const button of $("scenes").querySelectorAll("button")) {
    if (here && button.dataset.name === here.scene.name) button.setAttribute("aria-current", "true");
    else button.removeAttribute("aria-current");
  }
  $("story-title").textContent = here ? here.scene.title : "On your own";
  fill("story-text", here ? saying(here.scene.parts[here.part]) : ["The machine is yours: begin calls, step them in any order, abandon them, flush, crash. " + (left ? `You left the scene “${left.scene.title}” at its part ${left.part + 1}, and Back goes there again.` : "")]);
  $("back").disabled = here ? here.part === 0 && here.isWhole : !left;
  $("back-to").textContent = here || !left ? "" : ` to part ${left.part + 1}`;
  const isLast = here && here.isWhole && here.part === here.scene.parts.length - 1;
  $("next").disabled = !here || isLast;
  $("story-place").textContent = here ? `Part ${here.part + 1} of ${here.scene.parts.length}` + (isLast ? ": the end. Try another scene, or go on by yourself." : here.isWhole ? "" : ", not to its end") : "";
}

// The tree.

function svg(text, into) {
  into.replaceChildren();
  if (!text) return;
  const it = document.importNode(new DOMParser().parseFromString(text, "image/svg+xml").documentElement, true);
  const wide = Number(it.getAttribute("width"));
  into.append(it);
  // It has what room there is, but not so little that it cannot be read.
  const room = into.clientWidth || wide;
  it.style.width = `${Math.max(Math.min(wide * 1.25, room), wide * 0.75)}px`;
  if (it.clientWidth <= room) {
    into.removeAttribute("tabindex");
    return;
  }
  // What is wider is scrolled to where something goes on.
  into.tabIndex = 0;
  const { left, width } = it.querySelector(".call, .changed, .name").getBoundingClientRect();
  into.scrollLeft = left + width / 2 - it.getBoundingClientRect().left - room / 2;
}

// What an answer means, where that is not plain.
function meant(answer) {
  const flushed = /^flushed (\d+)$/.exec(answer);
  if (flushed) return ` (${count(Number(flushed[1]), "action")} became durable)`;
  return { "old -": " (nothing stood there before)", "value -": " (nothing stands there)" }[answer] || "";
}

// What the lines that were run last answered, and what they changed. Those with which a scene begins are for who asks.
function did() {
  const here = place();
  if (!here || here.part || !here.isWhole) return didLast();
  const inside = make("p", here.scene.parts[0].flatMap((line, at) => (isComment(line) ? [] : [answered(state.lines[at]), make("br")]).flat()));
  return [make("details", [make("summary", "The lines that made it"), inside], { class: "what" })];
}

function answered(it) {
  const said = it.said.length > 6 ? `${it.said.slice(0, 4).join(", ")} …` : it.said.join(", ") || "nothing";
  return [make("code", shortened(it.line)), " → ", make("code", said), meant(said)];
}

function didLast() {
  const lines = state.lines.slice(state.first).filter((it) => !isComment(it.line));
  if (!lines.length) return [];
  const some = lines.slice(-3);
  const inside = some.flatMap((it) => [...answered(it), make("br")]);
  if (lines.length > some.length) inside.unshift(`After ${count(lines.length - some.length, "other line")}: `);
  const texts = lines.flatMap((it) => it.did);
  const means = lines.map((it) => it.means).filter(Boolean).pop();
  const took = lines[lines.length - 1].took;
  if (texts.length > 4) texts.splice(3, texts.length, "and more");
  if (lines[lines.length - 1].said.length > 6) inside.push(make("pre", lines[lines.length - 1].said.join("\n")));
  const changed = state.trees.flatMap((tree) => tree.changed);
  if (means) inside.push(make("b", "What is wrong: "), `${means}.`);
  else if (took && took.length) inside.push(make("b", "The crash took back: "), `${took.join("; ")}.`);
  else if (took) inside.push(make("b", "The crash took nothing back."));
  else inside.push(make("b", "Changed: "), `${texts.join("; ") || (changed.length ? `the pages ${changed.join(", ")}` : "no page")}.`);
  if (took) inside.push(" What is left is durable, as after a flush, and no call is in flight any more.");
  return [make("p", inside, { class: "did" })];
}

function shortened(text) {
  return text.length > 90 ? `${text.slice(0, 88)}…` : text;
}

function showTrees() {
  const parts = state.trees.filter((tree, at) => at === 0 || !(tree.name === DEFAULT && !state.maps[DEFAULT])).map((tree, at) => {
    const name = tree.name === DEFAULT ? "The tree" : tree.name ? `The tree ${tree.name}` : "No database is open";
    const other = state.trees.length > 1 && at > 0 ? [" ", make("button", "make it current", { type: "button", "data-line": `tree ${tree.name}` })] : [];
    const drawing = make("div", [], { class: "drawing" });
    drawing.dataset.svg = tree.svg;
    const notes = make("ul", tree.notes.map((note) => make("li", note)), { class: "notes" });
    const text = make("details", [make("summary", "The same as text"), make("pre", tree.text.join("\n"))]);
    return make("div", [make("h2", [name, ...other]), ...(at === 0 ? did() : []), drawing, ...(tree.notes.length ? [notes] : []), text], { class: "one-tree" });
  });
  const kept = make("input", [], { type: "checkbox", id: "kept" });
  kept.checked = isKeptShown;
  kept.addEventListener("change", () => {
    isKeptShown = kept.checked;
    run();
  });
  const legend = make("details", [
    make("summary", "How to read this"),
    make("p", "Pairs lie in leaves, the boxes at the bottom. An index above says by its pointers (arrows down) in which page a key is. Each page also knows the page to its right, its next (dotted arrow). A dashed box has no pointer yet; a hatched box is merging. What the last lines brought is framed. A dark label is a call in flight, at the page that it read or changed last."),
    make("p", [make("label", [kept, " how the store keeps each page"]), ": “base 9 + 1 link” is a base of nine pairs, or pointers, and one small change over it. There are at most 8 of them; the ninth makes a new base."]),
  ], { class: "what", id: "legend" });
  legend.open = Boolean($("legend") && $("legend").open);
  const hadFocus = document.activeElement && document.activeElement.id === "kept";
  fill("trees", [make("div", parts, { class: "all-trees" }), legend]);
  if (hadFocus) kept.focus();
  for (const drawing of $("trees").querySelectorAll(".drawing")) svg(drawing.dataset.svg, drawing);
}

// Calls, decided calls, subscribers, maps, lines.

function button(text, line, label) {
  return make("button", text, { type: "button", "data-line": line, "aria-label": label });
}

function showCalls() {
  fill("calls", state.calls.map((call) => make("li", [
    make("p", [make("b", `${call.slot}: ${call.call}`), call.tree === DEFAULT ? "" : ` on ${call.tree}`, ` · ${call.where}`]),
    make("p", [make("i", "Next step: "), ...coded(`${call.next}.`)]),
    make("div", [
      button(["Step ", make("kbd", String(call.slot))], `step ${call.slot}`, `Step of call ${call.slot}`),
      button("Finish", `finish ${call.slot}`, `Finish call ${call.slot}`),
      button("Abandon", `abandon ${call.slot}`, `Abandon call ${call.slot}`),
    ], { class: "row" }),
  ])));
}

// What a crash that keeps so many actions does to a decided call.
function fate(entry, keep) {
  if (entry.lost) return "lost";
  if (entry.kind === "read" || entry.from === entry.to) return "";
  if (entry.to <= keep) return "kept";
  return entry.kind === "parts" && entry.from < keep ? "in part" : "lost";
}

// What is said of a decided call, and how it looks. Of one that is not flushed it is said that it is kept, or lost, only where the slider was
// put somewhere.
function fateSaid(entry, isFlushed) {
  const is = fate(entry, Number($("keep").value));
  if (!is) return ["changes nothing", ""];
  if (isFlushed) return entry.lost ? ["✗ lost", "is-lost"] : ["✓ durable", ""];
  if (slid === null) return ["○ not flushed: a crash may lose it", ""];
  const [sign, style] = { kept: ["✓", "is-kept"], lost: ["✗", "is-lost"], "in part": ["◐", "is-kept"] }[is];
  return [`${sign} with the slider at ${slid}: ${is}`, style];
}

function showHistory() {
  const flushed = state.history.map((it) => Boolean(it.mark)).lastIndexOf(true);
  fill("history", state.history.map((entry, at) => {
    if (entry.mark) return make("li", entry.text, { class: "mark" });
    const [said, style] = fateSaid(entry, at <= flushed);
    const tree = entry.tree && entry.tree !== DEFAULT ? ` on ${entry.tree}` : "";
    return make("li", [make("span", `${entry.slot ? `${entry.slot}: ` : ""}${shortened(entry.call)}${tree} → ${entry.answer}${entry.answer === "old -" ? " (none before)" : ""}`, { class: "call" }), make("span", said, { class: "fate" })], { class: style });
  }));
  $("history").scrollTop = $("history").scrollHeight;
}

function showSubscribers() {
  $("subscribers").hidden = !state.subscribers.length;
  fill("queues", state.subscribers.map((it, at) => make("li", [
    make("p", [make("b", `${at + 1}: ${it.prefix === "%" ? "all keys" : `${it.prefix}…`}`), it.tree === DEFAULT ? "" : ` on ${it.tree}`, ` · ${count(it.count, "event")} wait${it.count === 1 ? "s" : ""}`, it.missed ? ` · ${it.missed} missed, which it hears first` : ""]),
    make("ol", [...it.events.map((event) => make("li", event)), ...(it.count > it.events.length ? [make("li", `… and ${it.count - it.events.length} more`)] : [])], { class: "pairs" }),
    make("div", [button("Next event", `next ${at + 1}`, `Next event of subscriber ${at + 1}`), button("Give up", `unwatch ${at + 1}`, `Give subscriber ${at + 1} up`)], { class: "row" }),
  ])));
}

function nameOf(name) {
  return name === DEFAULT ? "" : name;
}

// The pairs of maps; where others are given, with what of these is lost or is another there.
function pairs(maps, now) {
  const names = [...new Set([...Object.keys(now || {}), ...Object.keys(maps)])];
  if (!names.length) return [make("p", "No pairs.", { class: "what" })];
  return names.flatMap((name) => {
    const there = new Map(maps[name] || []);
    const keys = [...new Set([...there.keys(), ...((now && now[name]) || []).map(([key]) => key)])].sort();
    const before = new Map((now && now[name]) || []);
    const items = keys.map((key) => {
      if (!there.has(key)) return make("li", [make("span", "lost: ", { class: "hidden" }), make("del", `${key}=${before.get(key)}`)], { class: "is-lost" });
      const isOther = now && before.get(key) !== there.get(key);
      return make("li", `${key}=${there.get(key)}${isOther ? (before.has(key) ? ` (not ${before.get(key)})` : " (again)") : ""}`, isOther ? { class: "is-other" } : {});
    });
    return [...(nameOf(name) || names.length > 1 ? [make("p", name, { class: "map-name" })] : []), make("ul", items, { class: "pairs" })];
  });
}

function showLog() {
  fill("log", state.lines.map((it) => (isComment(it.line) ? make("li", it.line, { class: "comment" }) : make("li", [make("span", it.line), make("span", it.said.slice(0, 60).join("\n"), { class: "said" })]))));
  $("log").scrollTop = $("log").scrollHeight;
}

// The crash that the slider asks for.

function showCrash() {
  const all = state.actions.length;
  $("crash-some").hidden = !all;
  $("crash-none").hidden = Boolean(all);
  $("crash-none").textContent = unchangedSince(state.history.filter((it) => it.mark).pop());
  keepSlider();
  $("crash").style.minHeight = "";
  $("keep").max = all;
  $("keep").value = slid === null ? all : slid;
  fill("actions", state.actions.map((it) => make("li", [make("span", "", { class: "fate" }), make("span", it.text)])));
  if (all) showKept();
}

// What is said where there are no actions: they are all durable since the last flush, or what opened the database.
function unchangedSince(last) {
  if (!state.is_open) return "No database is open, so there is nothing that a crash could take.";
  if (last && last.mark === "crash") return "Nothing was changed since the crash. What a crash leaves is durable, as after a flush, so another one leaves all as it is.";
  return `Nothing was changed since ${last && last.mark === "flush" ? "the last flush" : "the database was opened"}: a crash leaves all as it is.`;
}

// The slider stays where it was put as long as the actions up to there are the same, and says where it did not.
function keepSlider() {
  const actions = [String(state.history.filter((it) => it.mark).length), ...state.actions.map((it) => it.text)];
  const wasPut = slid !== null && slid < slidOver.length - 1;
  const stays = wasPut && slid < actions.length && slidOver.slice(0, slid + 1).every((text, at) => text === actions[at]);
  if (!stays) slid = null;
  $("slid-back").hidden = !wasPut || stays;
  slidOver = actions;
}

// The tallest that a crash was among these actions: what lies below the slider does not move the page.
function holdCrash() {
  $("crash").style.minHeight = `${$("crash").offsetHeight}px`;
}

function slide() {
  holdCrash();
  slid = Number($("keep").value);
  $("slid-back").hidden = true;
  showKept();
}

// How many of so many actions that are kept a crash leaves: of writes that go together none, where their end is not kept.
function leftOf(keep) {
  const kept = state.actions.slice(0, keep).map((it) => it.edge);
  const begun = kept.lastIndexOf("begin");
  return begun > kept.lastIndexOf("end") ? begun : keep;
}

async function showKept() {
  const keep = Number($("keep").value);
  const all = state.actions.length;
  $("keep-said").textContent = keep === 0 ? `none of ${count(all, "action")}` : keep === all ? `all of ${count(all, "action")}` : `the first ${keep} of ${count(all, "action")}`;
  $("keep").setAttribute("aria-valuetext", $("keep-said").textContent);
  [...$("actions").children].forEach((it, at) => {
    it.className = at < leftOf(keep) ? "is-kept" : "is-lost";
    it.firstChild.textContent = at < leftOf(keep) ? "✓ kept" : at < keep ? "✗ no end" : "✗ undone";
  });
  const edge = $("actions").children[Math.max(keep - 1, 0)];
  if (edge) $("actions").scrollTop = edge.offsetTop - $("actions").offsetTop - 60;
  $("crash-here").textContent = `Crash here, and keep ${keep}`;
  showHistory();
  $("crash-some").classList.add("waits");
  $("left-said").textContent = "The lines are run again, up to this crash …";
  wanted = { keep, state };
  const asked = wanted;
  await new Promise((done) => setTimeout(done, 60));
  if (asked !== wanted) return;
  try {
    const told = await post("/crash", { keep });
    if (asked === wanted && asked.state === state) showLeft(told);
  } catch (fault) {
    tell(fault.message);
  }
}

// After how many of the decided calls since the flush the maps are as a crash leaves them.
function showLeft(left) {
  const flushed = state.history.map((it) => Boolean(it.mark)).lastIndexOf(true);
  const calls = state.history.slice(flushed + 1).filter((it) => it.kind && it.kind !== "read" && it.from !== it.to);
  const kept = calls.filter((it) => fate(it, left.keep) === "kept");
  const writers = calls.length === 1 ? "the one call" : `the ${calls.length} calls`;
  const then = { flush: "the flush", crash: "the crash" }[flushed < 0 ? "" : state.history[flushed].mark] || "the opening";
  const asThen = `with the maps as they were at ${then}`;
  const said = !calls.length ? `${asThen}: no call that writes was decided since`
    : kept.length === calls.length ? `with all that was written by ${writers} decided since ${then}`
      : kept.length ? `with what was written by the first ${kept.length} of ${writers} decided since ${then}, and not even a part of the others`
        : `${asThen}: of ${writers} decided since there is nothing, not even a part`;
  const isPart = calls.some((it) => fate(it, left.keep) === "in part");
  $("crash-some").classList.remove("waits");
  $("left-said").textContent = `This crash leaves ${left.verified === "sound" ? "a sound tree" : left.verified}, ${isPart ? "with the first keys of what is made key by key" : said}.`;
  fill("left-maps", pairs(left.maps, state.maps));
  $("left-tree").dataset.svg = left.svg;
  svg(left.svg, $("left-tree"));
  fill("left-notes", left.notes.map((note) => make("li", note)));
}

function show() {
  showStory();
  showTrees();
  showCalls();
  showCrash();
  showHistory();
  showSubscribers();
  fill("maps", state.is_open ? pairs(state.maps) : [make("p", "No database is open.", { class: "what" })]);
  showLog();
  if (state.fault) tell(`From here on it is not known where calls are: ${state.fault}`);
}

// What is pressed and typed.

function operands() {
  const names = { K: "key", V: "value", OLD: "old, or -", NEW: "new, or -", LO: "from: .. or [K", HI: "to: .. or [K" };
  fill("operands", $("kind").value.split(" ").slice(1).map((word) => make("input", [], { "data-kind": word, placeholder: names[word], "aria-label": names[word], autocomplete: "off", autocapitalize: "off", spellcheck: "false" })));
}

// What was filled in by mistake, it seems: a key or a value that is empty, or a whole line in the place of a key.
function mistaken(box) {
  const { kind } = box.dataset;
  if (kind === "LO" || kind === "HI") return "";
  const what = { K: "key", V: "value", OLD: "old value", NEW: "new value" }[kind];
  const none = kind === "K" || kind === "V" ? "" : ", and - where there is to be none";
  if (!box.value) return `The ${what} is empty. If it is to be so, type the line below, with \`""\` for it${none}.`;
  const isLine = /^(begin|insert|get|remove|cas|merge|scan|scan-back|read|step|finish|batch|flush|crash) /.test(box.value);
  return kind === "K" && isLine ? `\`${box.value}\` looks like a line, and not like a key. Lines are typed below, under Lines; there it may be a key in quotes.` : "";
}

function beginCall() {
  const why = [...$("operands").children].map(mistaken).find(Boolean);
  if (why) {
    tell(why);
    return;
  }
  const words = [...$("operands").children].map((it) => {
    if (it.dataset.kind === "LO" || it.dataset.kind === "HI") return it.value.trim() || "..";
    return it.value === "-" && it.dataset.kind !== "K" && it.dataset.kind !== "V" ? "-" : quoted(it.value);
  });
  type(["begin", $("kind").value.split(" ")[0], ...words].join(" "));
}

function undo() {
  const lines = texts();
  while (lines.length && isComment(lines[lines.length - 1])) lines.pop();
  lines.pop();
  start(lines);
}

function save() {
  const link = make("a", "", { href: URL.createObjectURL(new Blob([texts().map((line) => `${line}\n`).join("")], { type: "text/plain" })), download: "machine.lines" });
  link.click();
  URL.revokeObjectURL(link.href);
}

async function open() {
  const [file] = $("open").files;
  $("open").value = "";
  if (file) start((await file.text()).split(/\r?\n/));
}

const atRandom = () => act("/random", { count: Number($("count").value), seed: Number($("seed").value) });
const PRESSED = {
  next, back, undo, save,
  flush: () => run("flush"),
  verify: () => run("verify"),
  new: () => start([]),
  "fill-do": () => run(`fill ${$("fill").value}`),
  random: atRandom,
  "crash-here": () => run(`crash ${$("keep").value}`),
};
const KEYS = { n: next, b: back, u: undo, f: PRESSED.flush, r: atRandom, "/": () => $("line").focus() };

function listen() {
  for (const [id, does] of Object.entries(PRESSED)) $(id).addEventListener("click", does);
  document.body.addEventListener("click", (event) => {
    const pressed = event.target.closest("[data-line]");
    if (pressed) run(pressed.dataset.line);
  });
  $("kind").addEventListener("change", operands);
  $("keep").addEventListener("input", slide);
  $("open").addEventListener("change", open);
  document.querySelector("#crash details").addEventListener("toggle", () => svg($("left-tree").dataset.svg, $("left-tree")));
  $("begin").addEventListener("submit", (event) => {
    event.preventDefault();
    beginCall();
  });
  $("line-form").addEventListener("submit", async (event) => {
    event.preventDefault();
    await type($("line").value);
    if ($("why").hidden) $("line").value = "";
  });
  document.addEventListener("keydown", (event) => {
    if (event.ctrlKey || event.altKey || event.metaKey || event.target.matches("input, select, textarea")) return;
    const does = KEYS[event.key] || (state.calls.some((call) => String(call.slot) === event.key) && (() => run(`step ${event.key}`)));
    if (does) {
      event.preventDefault();
      does();
    }
  });
  new ResizeObserver(pad).observe($("story"));
  window.addEventListener("resize", () => {
    for (const drawing of document.querySelectorAll(".drawing")) svg(drawing.dataset.svg, drawing);
  });
}

async function main() {
  scenes = await (await fetch("/scenes")).json();
  fill("scenes", scenes.map((scene) => {
    const it = make("button", scene.title, { type: "button", "data-name": scene.name });
    it.addEventListener("click", () => told(begin(scene)));
    return make("li", it);
  }));
  operands();
  listen();
  await run();
  if (!state.lines.length) begin(scenes[0]);
}

main();
