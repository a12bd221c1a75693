"use strict";
// The page that plays scenarios: its controls, its clock, and what it says.

const at = (id) => document.getElementById(id), picture = drawing();
/** How many milliseconds of the world pass in one of the page's; the last is as fast as it can. */
const SPEEDS = [["1/20", 0.05], ["1/10", 0.1], ["1/4", 0.25], ["1/2", 0.5], ["1", 1], ["3", 3], ["10", 10], ["100", 100], ["all", Infinity]];
/** Events that the worker is asked for at once, lines that wait here at most, and lines that one frame takes. */
const BATCH = 4000, AHEAD = 30000, PER_FRAME = 1500;
/** How much a followed run shows, in milliseconds; how many events are told; how often somebody who wants no motion is shown a new picture. */
const SPAN = 1500, TOLD = 13, STILL = 500;
const isStill = window.matchMedia("(prefers-reduced-motion: reduce)"), isNarrow = window.matchMedia("(max-width: 1050px)");

const play = {
  engine: null, bytes: null, run: null, queue: [], place: 0, isAsked: false, isDone: true, isPlaying: false, seeks: null, clock: 0, ended: null, led: [], last: null, recent: [],
  drawn: 0, before: 0, epoch: 0, frames: 0,
};

// ---- the module

/** Begins with the module, or says why it can't. */
function begin() {
  if (typeof PAGE_MODULE === "undefined") return refuse("The module of the nodes isn't beside this page: ./voumlis build makes it.");
  if (!has64BitMemory()) return refuse("This browser has no 64-bit WebAssembly memory. Chromium, Chrome and Edge have it from 133 on, Firefox from 134.");
  at("built").textContent = `${PAGE_MODULE.proved ? "proved" : "UNPROVED"}, commit ${PAGE_MODULE.commit}, ${PAGE_MODULE.kit}`;
  at("whose").textContent = PAGE_MODULE.proved ? "The nodes that run are the library's own, proved, and compiled for this page." : "The nodes that run are the library's own, but nothing of this build was proved.";
  at("built").title = `sha256 ${PAGE_MODULE.sha256}, ${PAGE_MODULE.bytes} bytes`;
  play.bytes = moduleBytes(PAGE_MODULE);
  restart();
  return true;
}

/** A worker with the module in its first state: it is the only one that takes memory back whole. */
function restart() {
  play.engine?.end();
  play.engine = worker();
}

function worker() {
  return new Remote(ENGINE_SOURCE, play.bytes, PAGE_MODULE.memory);
}

function refuse(why) {
  at("wrong").textContent = why;
  at("hint").textContent = why;
  for (const id of ["open", "play", "step", "lie", "crash", "split", "finish", "stop", "another", "file"]) at(id).disabled = true;
  return false;
}

// ---- a run

/** What the module is given: the page draws each event, so it wants all lines, as JSON. Each line stays at its place, as refusals count them. */
function asked(text) {
  const [first] = text.split(/^run$/m);
  return `${first.replace(/^(lines|format) .*$/gm, "")}\nlines all\nformat json`;
}

/** Opens the scenario in place of what is played. */
async function open(isPlaying = true) {
  if (!play.bytes) return;
  const epoch = ++play.epoch;
  at("wrong").textContent = "";
  restart();
  Object.assign(play, { run: null, queue: [], place: 0, isAsked: false, isDone: false, seeks: null, clock: 0, ended: null, led: [], last: null, recent: [] });
  picture.choose(null);
  for (const id of ["said", "told", "named"]) at(id).replaceChildren();
  const answer = await play.engine.ask("open", asked(at("text").value), true);
  if (epoch !== play.epoch) return;
  if (answer.status !== STATUS.DONE) return broken(answer);
  setPlaying(isPlaying);
  await more();
}

function broken({ status, trouble }) {
  play.isDone = true;
  setPlaying(false);
  at("wrong").textContent = trouble ?? (status === STATUS.MEMORY ? "Memory ran out: the run can't go on." : `The module answers ${status}.`);
}

/** Asks for the lines to come, where few wait. */
async function more() {
  if (play.isAsked || play.isDone || play.queue.length - play.place > AHEAD) return;
  const epoch = play.epoch;
  play.isAsked = true;
  const answer = await play.engine.ask("goOn", BATCH);
  if (epoch !== play.epoch) return;
  play.isAsked = false;
  taken(answer);
}

/** Takes lines up. */
function taken({ status, text, ended, trouble }) {
  if (play.place > 0) { play.queue.splice(0, play.place); play.place = 0; }
  for (const line of text.split("\n")) {
    const event = readLine(line);
    if (!event) continue;
    if (event.event === "refused") {
      at("wrong").textContent = `line ${event.line} of the text is refused: ${event.why}`;
      play.isDone = true;
    }
    if (!play.run && isWorld(event)) {
      play.run = begun(event);
      picture.choose(play.run);
      if (!at("followed").checked) picture.look(0, SPAN);
    }
    play.queue.push(event);
  }
  if (status !== STATUS.DONE) return broken({ status, trouble });
  if (ended !== null && ended !== undefined) { play.isDone = true; play.ended = ended; }
  if (!play.isDone) more();
}

/** Takes the next line of the queue in. What it was, where it is an event. */
function next() {
  const event = play.queue[play.place++];
  if (!play.run || !grow(play.run, event)) return null;
  play.clock = Math.max(play.clock, event.at);
  play.last = { event, led: play.led[event.member] };
  const name = event.kind === undefined ? event.event : `${event.event} ${event.kind}`;
  if (Object.hasOwn(LED, name)) play.led[event.member] = name;
  play.recent.push(play.last);
  if (play.recent.length > TOLD) play.recent.shift();
  return event;
}

const isOver = () => play.isDone && play.place >= play.queue.length;

/** A frame: as many events as the clock has come to, and the picture of them. */
function frame(now) {
  const gone = Math.min(now - play.before, 100);
  play.before = now;
  if (play.run && (play.isPlaying || play.seeks)) {
    advance(gone);
    more();
    if (!isStill.matches || now - play.drawn > STILL || isOver()) {
      play.drawn = now;
      show();
    }
    play.frames += 1;
  }
  requestAnimationFrame(frame);
}

function advance(gone) {
  const speed = play.seeks ? Infinity : SPEEDS[at("speed").value][1], until = speed === Infinity ? Infinity : play.clock + gone * speed;
  for (let count = 0; count < PER_FRAME && play.place < play.queue.length; count++) {
    if (play.queue[play.place].at > until) break;
    const event = next();
    if (event && play.seeks?.(event)) return stopSeeking();
  }
  if (play.place < play.queue.length && until !== Infinity) play.clock = Math.min(until, play.queue[play.place].at ?? until);
  if (isOver()) stopSeeking();
}

/** Stops there; the frame shows it, also where somebody wants no motion. */
function stopSeeking() {
  play.seeks = null;
  setPlaying(false);
  play.drawn = -Infinity;
}

/** Looks for the next event of a kind, in a run that it begins where there is none. */
async function seek(seeks) {
  if (!play.run) await open(false);
  play.seeks = seeks;
}

const IS = {
  lie: ({ event }) => event === "lied", crash: ({ event }) => ["crashed", "down", "closed"].includes(event), split: ({ event }) => event === "contradicts", finish: () => false,
};

async function step() {
  setPlaying(false);
  if (!play.run) await open(false);
  while (play.place < play.queue.length && !next());
  if (play.place >= play.queue.length) more();
  show();
}

/** Ends the run where the worker has come to, which may be ahead of the picture, and goes there. */
async function stop() {
  if (!play.run) return;
  if (play.isDone) return seek(IS.finish);
  const epoch = play.epoch;
  const answer = await play.engine.ask("stop");
  if (epoch !== play.epoch) return;
  play.isDone = true;
  taken(answer);
  seek(IS.finish);
}

function setPlaying(isPlaying) {
  play.isPlaying = isPlaying;
  at("play").textContent = isPlaying ? "Pause" : "Play";
  at("said").setAttribute("aria-live", isPlaying ? "off" : "polite"); // what passes by is too much to be read out
}

// ---- what is shown

function show() {
  if (!play.run) return;
  const isFollowed = at("followed").checked && !isOver();
  if (isOver() && play.shownEnd !== play.epoch) {
    play.shownEnd = play.epoch;
    picture.tell();
    if (at("followed").checked) picture.widen();
  }
  const [left, right] = picture.span();
  picture.follow(play.clock, isFollowed ? followedSpan(right - left) : 0);
  at("clock").textContent = `${(play.clock / 1000).toFixed(2)} s, ${play.run.events.length} events`;
  say();
  at("named").textContent = verdictTold(play.run);
}

/** A span that somebody chose is kept. */
function followedSpan(span) {
  play.span ??= SPAN;
  if (play.isZoomed) play.span = span;
  play.isZoomed = false;
  return play.span;
}

/** The last event in words; while it plays fast, what came before it too, a line each. */
function say() {
  if (!play.last) return;
  const [what, why] = told(play.last.event, play.run, play.last.led), bold = document.createElement("b");
  if (at("said").firstChild?.textContent === what && at("said").dataset.at === String(play.last.event.at)) return;
  bold.textContent = what;
  at("said").dataset.at = play.last.event.at;
  at("said").replaceChildren(bold, why);
  at("told").replaceChildren(...play.recent.slice(0, -1).reverse().map(({ event, led }) => {
    const line = document.createElement("li");
    line.textContent = `${event.at} ms: ${told(event, play.run, led)[0]}`;
    return line;
  }));
}

// ---- the controls

/** The form's values: what the text says, unless it says what no control has. */
let values = plainScenario();

/** What was typed as a whole number between these; what is none is as it was. */
function bounded(typed, least, most, before = least) {
  const given = Math.round(Number(typed));
  return typed !== "" && Number.isFinite(given) ? Math.min(Math.max(given, least), most) : before;
}

function number(value, least, most, name, take) {
  const input = document.createElement("input");
  Object.assign(input, { type: "number", min: least, max: most, step: 1, value, title: `${name}: ${least} to ${most}` });
  input.setAttribute("aria-label", name);
  input.onchange = () => {
    input.value = value = bounded(input.value, least, most, value);
    take(value);
    fromForm();
  };
  return input;
}

/** A control of one of some words. */
function choice(value, words, name, take) {
  const select = document.createElement("select");
  select.replaceChildren(...Object.entries(words).map(([word, says]) => new Option(says, word, false, word === value)));
  select.setAttribute("aria-label", name);
  select.onchange = () => { take(select.value); fromForm(); };
  return select;
}

function fillForm() {
  at("seed").value = values.seed;
  const groups = new Map();
  for (const [word, group, fields] of LINES) {
    if (!groups.has(group)) {
      const set = document.createElement("fieldset"), legend = document.createElement("legend");
      legend.textContent = group;
      set.append(legend);
      groups.set(group, set);
    }
    groups.get(group).append(...fields.map((field, place) => fieldOf(word, field, place)));
  }
  at("fields").replaceChildren(...groups.values());
  fillRows();
}

/** The control of a line's value, in its label. How many members there are bounds what rows say of one. */
function fieldOf(word, [name, , ...bounds], place) {
  const label = document.createElement("label"), value = values.settings[word][place];
  const take = (given) => { values.settings[word][place] = given; if (word === "members") fillRows(); };
  const input = typeof bounds[0] === "object" ? choice(value, bounds[0], name, take) : number(value, ...bounds, name, take);
  label.className = "field";
  input.id = `${word}-${place}`;
  label.append(name, input);
  return label;
}

/** What may come several times, a row each: how one is made, and what a new one says. */
const ROWS = {
  liars: [liarRow, () => ({ member: last(), ways: ["two-votes"] })],
  crashes: [numbersRow, () => [0, 3, 5, 500]],
  joins: [numbersRow, () => [last(), 5000]],
  downs: [numbersRow, () => [0, 1000 + 10000 * values.downs.length, 6000 + 10000 * values.downs.length]],
  cuts: [cutRow, () => [0, 2000, "0"]],
};

function fillRows() {
  for (const [id, [make]] of Object.entries(ROWS)) {
    at(id).replaceChildren(...values[id].map((each, place) => {
      const row = document.createElement("div"), remove = document.createElement("button");
      remove.textContent = "remove";
      remove.setAttribute("aria-label", `remove row ${place + 1}`);
      remove.onclick = () => { values[id].splice(place, 1); changeRows(); at(`add-${id}`).focus(); };
      row.append(...make(each, id), remove);
      return row;
    }));
  }
}

function changeRows() {
  fromForm();
  fillRows();
}

const last = () => values.settings.members[0] - 1;

function liarRow(liar) {
  const does = document.createElement("span"), say = () => { does.textContent = liar.ways.map((way) => WAYS[way]).join("; "); };
  const boxes = Object.keys(WAYS).map((way) => {
    const label = document.createElement("label"), box = document.createElement("input");
    Object.assign(box, { type: "checkbox", checked: liar.ways.includes(way) });
    box.onchange = () => { liar.ways = Object.keys(WAYS).filter((it) => (it === way ? box.checked : liar.ways.includes(it))); say(); fromForm(); };
    label.title = WAYS[way];
    label.append(box, way);
    return label;
  });
  does.className = "none";
  say();
  return ["member", number(liar.member, 0, last(), "who lies", (given) => { liar.member = given; }), ...boxes, does];
}

function numbersRow(row, id) {
  return LISTS[id][1].flatMap(([before, name, least = 0, most = last()], place) => [before, number(row[place], least, most, name, (given) => { row[place] = given; })]);
}

function cutRow(cut) {
  const of = (place, name) => number(cut[place], 0, 1e8, name, (given) => { cut[place] = given; }), side = document.createElement("input");
  Object.assign(side, { type: "text", value: cut[2], pattern: "\\d+(,\\d+)*" });
  side.setAttribute("aria-label", "members of the one side");
  side.onchange = () => { if (isSide(side.value)) cut[2] = side.value; else side.value = cut[2]; fromForm(); };
  return ["from, ms", of(0, "from"), "until", of(1, "until"), "members", side];
}

/** The text is what runs: the form writes it. */
function fromForm() {
  at("text").value = textOf(values);
  at("about").textContent = sentenceOf(values);
}

/** The form follows the text, where it can. */
function fromText(text, about = "") {
  at("text").value = text;
  const found = scenarioOf(text);
  if (found) { values = found; fillForm(); }
  at("about").textContent = [about, found ? sentenceOf(found) : "A line here is none that controls have: the text counts, until a control is changed."].filter(Boolean).join(" ");
}

/** The scenarios to begin with: those that tell something, and those that a tool made. */
function fillPresets() {
  const presets = scenariosOf(PRESETS), isMade = ({ told: comment }) => /^scenario/.test(comment);
  const groups = [["To begin with", (each) => !isMade(each)], ["Made by chance", isMade]].map(([name, holds]) => {
    const group = document.createElement("optgroup");
    group.label = name;
    group.append(...presets.filter(holds).map((each) => new Option(isMade(each) ? sentenceOf(scenarioOf(each.text) ?? plainScenario()) : each.told, presets.indexOf(each))));
    return group;
  });
  at("preset").replaceChildren(...groups);
  at("preset").onchange = () => {
    const preset = presets[at("preset").value];
    fromText(preset.text.split("\n").filter((line) => !/^(lines|format) /.test(line)).join("\n"), isMade(preset) ? "" : preset.told);
    open();
  };
  return presets;
}

// ---- links

async function link() {
  location.hash = encodeURIComponent(at("text").value);
  try {
    await navigator.clipboard.writeText(location.href);
    at("linked").textContent = "copied";
  } catch {
    at("linked").textContent = "it stands in the address bar";
  }
}

/** The text that the address holds, or nothing. */
function linked() {
  try {
    return decodeURIComponent(location.hash.slice(1));
  } catch {
    return "";
  }
}

function fromLink() {
  if (linked()) fromText(linked(), "From a link.");
  return linked() !== "";
}

// ---- reports and records of somebody's own

/** How many files were asked about, and of which one the answer stands there. */
const answering = { asked: 0, told: 0 };

/** Tells what a file says. Of two the last one is told, whichever is read sooner; a folder, or a file that is gone, can't be read. */
async function answer(file) {
  if (!play.bytes) return;
  const number = ++answering.asked;
  at("answer").textContent = "…";
  const told = await examined(file).catch((error) => `${file.name || "it"} can't be read: ${error.message}`);
  if (number !== answering.asked) return;
  at("answer").textContent = told;
  answering.told = number;
}

async function examined(file) {
  const bytes = new Uint8Array(await file.arrayBuffer()), members = bounded(at("count").value, 0, 65535);
  const asks = at("is-record").checked ? ["record", members, bounded(at("owner").value, 0, 65535), bytes] : ["audit", members, bytes];
  const helper = worker();
  const { status, text } = await helper.ask(...asks);
  helper.end();
  const words = { [STATUS.MEMORY]: "memory ran out", [STATUS.ARGUMENT]: "a committee has one member or more" };
  return status === STATUS.DONE ? text || "nobody is named: no two votes here contradict each other" : words[status] ?? `the module answers ${status}`;
}

// ---- the page

function wire() {
  at("speed").replaceChildren(...SPEEDS.map(([name], place) => new Option(name === "all" ? "as fast as it can" : `× ${name}`, place)));
  at("speed").value = 3;
  at("open").onclick = () => open();
  at("another").onclick = () => { setSeed(Math.floor(Math.random() * MOST_NUMBER)); open(); };
  at("seed").onchange = () => { setSeed(bounded(at("seed").value, 0, MOST_NUMBER, values.seed)); };
  at("text").onchange = () => fromText(at("text").value);
  for (const [id, [, fresh]] of Object.entries(ROWS)) at(`add-${id}`).onclick = () => { values[id].push(fresh()); changeRows(); };
  at("link").onclick = link;
  at("play").onclick = toggle;
  at("step").onclick = step;
  at("stop").onclick = stop;
  for (const name of ["lie", "crash", "split", "finish"]) at(name).onclick = () => seek(IS[name]);
  at("file").onclick = ({ target }) => { target.value = ""; }; // so that the same file may be chosen again
  at("file").onchange = (change) => change.target.files[0] && answer(change.target.files[0]);
  at("lanes").addEventListener("wheel", () => { play.isZoomed = true; });
  for (const id of ["in", "out"]) at(id).addEventListener("click", () => { play.isZoomed = true; });
  picture.moved = () => { at("followed").checked = false; };
  at("all").addEventListener("click", () => picture.moved());
  document.body.ondragover = (drag) => drag.preventDefault();
  document.body.ondrop = (drop) => { drop.preventDefault(); if (drop.dataTransfer.files[0]) answer(drop.dataTransfer.files[0]); };
  window.onhashchange = () => { if (linked() !== at("text").value && fromLink()) open(); }; // a link that was copied changes nothing
  document.addEventListener("keydown", press);
}

/** The seed's line in the text, whatever else stands there. */
function setSeed(seed) {
  const lines = at("text").value.split("\n"), place = lines.findIndex((line) => line.startsWith("seed "));
  if (place < 0) lines.push(`seed ${seed}`); else lines[place] = `seed ${seed}`;
  fromText(lines.join("\n"));
}

async function toggle() {
  if (!play.run || isOver()) return open();
  play.seeks = null;
  setPlaying(!play.isPlaying);
}

function press(key) {
  if (!at("keyed").checked || key.ctrlKey || key.metaKey || key.altKey || /^(INPUT|SELECT|TEXTAREA|SUMMARY)$/.test(key.target.tagName)) return;
  const [left, right] = picture.span(), by = (right - left) / 8, away = () => picture.moved();
  const does = {
    " ": () => key.target.tagName === "BUTTON" || toggle(), "ArrowRight": step, "l": () => seek(IS.lie), "c": () => seek(IS.crash), "x": () => seek(IS.split), "e": () => seek(IS.finish),
    "+": () => { play.isZoomed = true; picture.zoom(0.6); }, "-": () => { play.isZoomed = true; picture.zoom(1 / 0.6); }, "0": () => at("all").click(),
    "[": () => { away(); picture.look(left - by, right - by); }, "]": () => { away(); picture.look(left + by, right + by); },
  }[key.key];
  if (!does || (!play.run && /^[-+0[\]]$/.test(key.key))) return;
  if (!(key.key === " " && key.target.tagName === "BUTTON")) key.preventDefault();
  does();
}

wire();
const presets = fillPresets();
picture.choose(null);
at("change").open = !isNarrow.matches;
const isLinked = fromLink();
if (!isLinked) fromText(presets[0].text, presets[0].told);
if (begin()) {
  if (isLinked) open(false);
  requestAnimationFrame(frame);
}
