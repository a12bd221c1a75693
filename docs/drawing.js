"use strict";
// What world.html and play.html draw: runs of simplex_world, by their JSON lines.
// ---- a run, read from its lines

/** The kinds of marks: what an event is drawn as, in which colour, if not that of the ink, and on which row of its member's lane. */
const MARKS = {
  "built": { colour: "#7a8794", row: 0, shape: "square", name: "built" },
  "lied": { colour: "#8a3ab9", row: 0, shape: "cross", name: "lie" },
  "blocked": { colour: "#d0342c", row: 0, shape: "cross", name: "block" },
  "saw": { colour: "#d0342c", row: 0, shape: "square", name: "evidence" },
  "voted notarize": { colour: "#2f6fde", row: 1, shape: "circle", name: "vote to notarize" },
  "voted nullify": { colour: "#e08a00", row: 1, shape: "circle", name: "vote to nullify" },
  "voted finalize": { colour: "#1f9d55", row: 1, shape: "circle", name: "vote to finalize" },
  "certified notarization": { colour: "#2f6fde", row: 2, shape: "square", name: "notarization" },
  "certified nullification": { colour: "#e08a00", row: 2, shape: "square", name: "nullification" },
  "certified finalization": { colour: "#1f9d55", row: 2, shape: "square", name: "finalization" },
  "judged": { colour: "#59b6a5", row: 2, shape: "triangle", name: "good verdict" },
  "finalized": { colour: "#0d6b36", row: 3, shape: "diamond", name: "final" },
  "crashed": { colour: "#d0342c", row: 3, shape: "cross", name: "crash" },
  "down": { colour: "#d0342c", row: 3, shape: "triangle", name: "kill" },
  "joined": { colour: "#2f6fde", row: 3, shape: "triangle", name: "joins late" },
  "closed": { colour: "#e08a00", row: 3, shape: "cross", name: "closed by its host" },
  "rewrote": { colour: "#59b6a5", row: 3, shape: "square", name: "record rewritten" },
  "opened": { row: 3, shape: "circle", name: "opening" },
  "lost": { colour: "#d0342c", row: 3, shape: "square", name: "record lost" },
  "contradicts": { colour: "#ff0040", row: 3, shape: "star", name: "contradiction" },
};
const GENESIS = "0 0", MOST_MEMBERS = 64;

function markOf(event) {
  const named = [`${event.event} ${event.kind}`, event.event].find((name) => Object.hasOwn(MARKS, name));
  return named === undefined ? undefined : MARKS[named];
}

/** The runs of a text of JSON lines: each begins with its line `world`. Lines that are none of a run are passed over. */
function readRuns(text) {
  const runs = [];
  for (const line of text.split("\n")) {
    const event = readLine(line);
    if (!event) continue;
    if (isWorld(event)) runs.push(begun(event));
    const run = runs.at(-1);
    if (run) takeEvent(run, event);
  }
  return runs.map(finish);
}

/** What a line says, or nothing. */
function readLine(line) {
  if (!line.startsWith("{")) return null;
  try { return JSON.parse(line); } catch { return null; }
}

function isWorld({ event, members }) {
  return event === "world" && Number.isInteger(members) && members >= 1 && members <= MOST_MEMBERS;
}

/** A run of which nothing has happened yet. */
function begun(world) {
  return {
    world, ways: {}, events: [], table: [], evidence: [], ended: null, last: 1, views: [], downs: [], entries: true,
    open: {}, down: {}, builds: new Map(), finals: [], laid: null,
    get chain() { return this.laid ??= chainOf(this.finals, this.builds); },
  };
}

/** Takes a line in. One that names a member by anything but a number of the committee's is passed over: a word may be one that every
    object answers to. Whether it is an event of a member. */
function takeEvent(run, event) {
  const isOfMember = Number.isInteger(event.member) && event.member >= 0 && event.member < run.world.members;
  switch (event.event) {
    case "world": break;
    case "liar": if (isOfMember) (run.ways[event.member] ??= []).push(String(event.way)); break;
    case "stands": if (isOfMember) run.table.push(event); break;
    case "evidence": run.evidence.push(String(event.line)); break;
    case "ended": run.ended = event; run.last = Math.max(run.last, event.at ?? 0); break;
    default:
      if (!isOfMember || !Number.isFinite(event.at) || event.at < 0) return false;
      run.events.push(event);
      return true;
  }
  return false;
}

/** Takes a line in of a run that grows, whose lines come in their order. Whether it is an event of a member. */
function grow(run, event) {
  const isEvent = takeEvent(run, event);
  if (isEvent) extend(run, event);
  return isEvent;
}

/** A run that is read whole: where it leaves out what is frequent, nobody knows which view a member stands at. */
function finish(run) {
  run.events.sort((one, other) => one.at - other.at);
  run.entries = run.events.some(({ event }) => event === "entered");
  for (const event of run.events) extend(run, event);
  return run;
}

/** What is drawn beside an event: spans of views and of being down, and the chain. One that is open ends where the run does. */
function extend(run, event) {
  const { at, member, view } = event;
  event.mark = markOf(event);
  run.last = Math.max(run.last, at);
  switch (event.event) {
    case "built": run.builds.set(event.payload, event); run.laid = null; break;
    case "finalized": run.finals.push(event); run.laid = null; break;
    case "closed": closeSpan(run.open, member, at); break;
    case "crashed": case "down": case "away":
      closeSpan(run.open, member, at);
      if (!run.down[member]) run.downs.push(run.down[member] = { member, at, until: null });
      break;
    case "opened": case "entered":
      closeSpan(run.open, member, at);
      if (event.event === "opened") closeSpan(run.down, member, at);
      if (run.entries) run.views.push(run.open[member] = { member, view, at, until: null });
  }
}

/** Ends a member's span. */
function closeSpan(spans, member, at) {
  if (spans[member]) spans[member].until = at;
  delete spans[member];
}

// ---- the chain: a tree of what is final, by payload. It has one branch where members agree.

/** All blocks that some member has as final, each with its parent, its branch, and whether the chain parts there. */
function chainOf(finals, built) {
  const blocks = new Map([[GENESIS, { view: 0, payload: 0, at: 0, members: new Set(), children: [] }]]);
  for (const event of finals) {
    const key = `${event.view} ${event.payload}`, { view, payload, parent, at } = event;
    if (!blocks.has(key)) blocks.set(key, { view, payload, parent, at, members: new Set(), children: [] });
    blocks.get(key).members.add(event.member);
  }
  for (const block of [...blocks.values()]) tie(block, blocks, built);
  return layOut(blocks);
}

/** Ties a block to its parent, and that to its own, where it is final as an ancestor alone. */
function tie(block, blocks, built) {
  while (block.view > 0 && block.from === undefined) {
    const key = parentKey(block, blocks, built);
    block.from = key;
    if (key === null) return;
    if (!blocks.has(key)) {
      const [view, payload] = key.split(" ").map(Number), made = built.get(payload);
      blocks.set(key, { view, payload, parent: made?.parent ?? null, at: made?.at ?? block.at, silent: true, members: new Set(), children: [] });
    }
    blocks.get(key).children.push(block);
    block = blocks.get(key);
  }
}

/** A proposal names its parent's view alone. Which payload that is: the one it was built on, or what the same members have as final. */
function parentKey(block, blocks, built) {
  const made = built.get(block.payload);
  if (made?.view === block.view) return `${made.parent} ${made.on}`;
  if (block.parent === 0) return GENESIS;
  const there = [...blocks].filter(([, it]) => it.view === block.parent);
  const [key] = there.find(([, it]) => [...block.members].some((member) => it.members.has(member))) ?? (there.length === 1 ? there[0] : [null]);
  return key;
}

/** A row for each branch; the first row has the branch on which most members and the highest view stand. */
function layOut(blocks) {
  const weigh = (block) => {
    const weights = block.children.map(weighed);
    return Math.max(block.members.size * 1e9 + block.view, ...weights);
  };
  const known = new Map(), order = [...blocks.values()].sort((one, other) => other.view - one.view);
  const weighed = (block) => known.get(block) ?? 0;
  for (const block of order) known.set(block, weigh(block));
  let rows = 0;
  const roots = order.filter((block) => block.view === 0 || block.from === null).reverse();
  const waiting = roots.map((block) => ({ block, row: null })).reverse();
  while (waiting.length) {
    const { block, row } = waiting.pop();
    block.row = row ?? rows++;
    block.children.sort((one, other) => weighed(other) - weighed(one));
    block.parts = block.children.length > 1;
    block.children.slice(1).reverse().forEach((child) => waiting.push({ block: child, row: null }));
    if (block.children.length) waiting.push({ block: block.children[0], row: block.row });
  }
  for (const block of blocks.values()) block.above = blocks.get(block.from) ?? null;
  return { blocks: order.reverse(), rows, parted: order.filter((block) => block.parts) };
}

/** What the run came to, in a word, and whether that is good. */
function verdictOf({ ended, world, chain }) {
  if (!ended) return { look: chain.parted.length ? "bad" : "", text: "not ended" };
  const split = ended.contradictions || chain.parted.length;
  if (split && ended.named > world.faults) return { look: "bad", text: `SPLIT, and the audit names ${ended.named} liars · status ${ended.status}` };
  if (split) return { look: "bad", text: `SPLIT · status ${ended.status}` };
  if (ended.status) return { look: "bad", text: `a promise is broken · status ${ended.status}` };
  return { look: "good", text: `one chain · status ${ended.status}` };
}

// ---- the picture

const INKS = {
  light: { ink: "#1d232b", faint: "#66717e", line: "#dfe4e9", views: ["#dde7f1", "#eef3f8", "#e5edf4"], down: "#d0342c33", lie: "#8a3ab9", paper: "#fff", red: "#c62033", green: "#0d6b36" },
  dark: { ink: "#e6ebf0", faint: "#9aa6b3", line: "#2c343d", views: ["#26323f", "#1d2631", "#222d38"], down: "#d0342c55", lie: "#c58be6", paper: "#14181d", red: "#ff6b78", green: "#4cc07a" },
};

/** Draws runs on the page's canvas `lanes`, with what stands beside it: marks, the table of members, whom the audit names. */
function drawing() {
  const at = (id) => document.getElementById(id);
  const canvas = at("lanes"), brush = canvas.getContext("2d"), stage = at("stage");
  const hidden = new Set(), stamps = new Map();
  const isDark = window.matchMedia("(prefers-color-scheme: dark)"), inksOf = () => (isDark.matches ? INKS.dark : INKS.light);
  let run = null, left = 0, right = 1, inks = inksOf(), cursor = null;
  const TOP = 26, LEAST_LANE = 34, BRANCH = 26, CROWD = 5000, MOST_NAMED = 500;

  // What is asked of the page's layout, once a frame: the room of labels, of lanes, of one lane and of the chain.
  let room = { label: 78, wide: 1, lane: LEAST_LANE, chain: BRANCH };
  function measure() {
    const label = stage.clientWidth < 500 ? 58 : 78, chain = 20 + BRANCH * Math.max(run.chain.rows, 1);
    const lane = Math.max(LEAST_LANE, (stage.clientHeight - TOP - chain - 2) / run.world.members);
    room = { label, wide: canvas.clientWidth - label, lane, chain };
  }

  const label = () => room.label;
  const width = () => room.wide;
  const laneHeight = () => room.lane;
  const xOf = (moment) => label() + ((moment - left) / (right - left)) * width();
  const momentOf = (x) => left + ((x - label()) / width()) * (right - left);
  const yOf = (member, row) => TOP + laneHeight() * (member + 0.2 + row * 0.2);
  const blockY = (row) => TOP + laneHeight() * run.world.members + 22 + BRANCH * row;
  const full = () => ({ least: -run.last * 0.02 - 1, most: run.last * 1.02 + 1 });

  /** Looks at this span, kept within the run and above a millisecond or so. */
  function look(from, until) {
    turn(from, until);
    draw();
  }

  function turn(from, until) {
    const { least, most } = full(), span = Math.min(Math.max(until - from, 10), most - least);
    left = Math.min(Math.max(from, least), most - span);
    right = left + span;
  }

  /** The next picture is of the whole run. */
  function widen() {
    turn(full().least, full().most);
  }

  function zoom(by, moment = (left + right) / 2) {
    if (!run) return;
    const { least, most } = full(), bounded = Math.min(Math.max((right - left) * by, 10), most - least) / (right - left);
    look(moment - (moment - left) * bounded, moment + (right - moment) * bounded);
  }

  function draw() {
    if (run) measure();
    inks = inksOf();
    const scale = window.devicePixelRatio || 1;
    const height = run ? Math.max(stage.clientHeight - 2, TOP + run.world.members * laneHeight() + room.chain) : 0;
    canvas.style.height = `${height}px`;
    const size = [canvas.clientWidth * scale, height * scale].map(Math.round);
    if (canvas.width !== size[0] || canvas.height !== size[1]) [canvas.width, canvas.height] = size;
    brush.setTransform(scale, 0, 0, scale, 0, 0);
    brush.clearRect(0, 0, canvas.clientWidth, height);
    if (!run) return;
    brush.save();
    brush.beginPath();
    brush.rect(label(), 0, width(), height);
    brush.clip();
    drawTime();
    drawSpans();
    drawEvents();
    drawChain();
    drawCursor();
    brush.restore();
    drawLabels();
  }

  /** The moment that a run which grows has come to. */
  function drawCursor() {
    if (cursor === null) return;
    brush.strokeStyle = inks.ink;
    brush.setLineDash([2, 4]);
    brush.beginPath();
    brush.moveTo(xOf(cursor), 16);
    brush.lineTo(xOf(cursor), canvas.clientHeight);
    brush.stroke();
    brush.setLineDash([]);
  }

  function drawTime() {
    const rough = ((right - left) / width()) * 90, power = 10 ** Math.floor(Math.log10(rough));
    const apart = Math.max([1, 2, 5, 10].map((it) => it * power).find((it) => it >= rough), 1);
    brush.fillStyle = inks.faint;
    brush.strokeStyle = inks.line;
    brush.font = "11px system-ui";
    for (let moment = Math.max(Math.ceil(left / apart) * apart, 0); moment <= right; moment += apart) {
      brush.beginPath();
      brush.moveTo(xOf(moment), 16);
      brush.lineTo(xOf(moment), canvas.clientHeight);
      brush.stroke();
      brush.fillText(apart >= 1000 ? `${moment / 1000} s` : `${moment} ms`, xOf(moment) + 3, 12);
    }
  }

  /** Bands of views and of being down. Views that are narrower than two pixels are one band in a shade between. */
  function drawSpans() {
    const high = Math.round(laneHeight() - 4), shown = run.views.filter(({ at: from, until }) => (until ?? run.last) >= left && from <= right);
    const bands = [[], [], []], last = [];
    for (const { member, view, at: from, until } of shown) {
      const x = xOf(from), end = xOf(until ?? run.last), shade = end - x < 2 ? 2 : view % 2;
      if (shade === 2 && last[member]?.shade === 2 && x - last[member].end < 2) last[member].end = end;
      else bands[shade].push(last[member] = { member, x, end, shade });
    }
    inks.views.forEach((colour, shade) => {
      brush.fillStyle = colour;
      for (const { member, x, end } of bands[shade]) {
        brush.fillRect(Math.round(x), Math.round(TOP + member * laneHeight() + 2), Math.max(Math.round(end) - Math.round(x), 1), high);
      }
    });
    brush.fillStyle = inks.faint;
    brush.font = "10px system-ui";
    for (const { member, view, at: from, until } of shown) {
      const x = Math.max(xOf(from), label());
      if (xOf(until ?? run.last) - x > 22) brush.fillText(view, x + 2, TOP + member * laneHeight() + 11);
    }
    brush.fillStyle = inks.down;
    for (const { member, at: from, until } of run.downs) {
      brush.fillRect(xOf(from), TOP + member * laneHeight() + 2, Math.max(xOf(until ?? run.last) - xOf(from), 2), high);
    }
  }

  /** The places of the events between two moments: they lie in order. */
  function within(from, until) {
    let low = 0, high = run.events.length;
    while (low < high) {
      const middle = (low + high) >> 1;
      if (run.events[middle].at < from) low = middle + 1; else high = middle;
    }
    const first = low;
    while (low < run.events.length && run.events[low].at <= until) low++;
    return [first, low];
  }

  /** Each mark is a stamp. Two of a kind in a lane that fall on one pixel are one mark; where all is crowded, marks in a row are a bar. */
  function drawEvents() {
    const slack = ((right - left) / width()) * 6, [first, end] = within(left - slack, right + slack);
    const grain = end - first > CROWD ? 3 : 1, per = width() / (right - left) / grain;
    const columns = Math.ceil(width() / grain) + 16, bins = new Map();
    for (let place = first; place < end; place++) {
      const event = run.events[place], { mark } = event;
      if (!mark || hidden.has(mark.name)) continue;
      if (!bins.has(mark)) bins.set(mark, new Uint8Array(columns * run.world.members));
      bins.get(mark)[event.member * columns + Math.round((event.at - left) * per) + 8] = 1;
    }
    for (const mark of Object.values(MARKS)) {
      if (bins.has(mark)) drawMark(mark, bins.get(mark), columns, grain);
    }
  }

  function drawMark(mark, bins, columns, grain) {
    const stamp = stampOf(mark), from = Math.round(label());
    brush.fillStyle = colourOf(mark);
    for (let bin = 0; bin < bins.length; bin++) {
      if (!bins[bin]) continue;
      const member = Math.floor(bin / columns), begun = bin, y = Math.round(yOf(member, mark.row));
      if (grain > 1) while (bins[bin + 1] && (bin + 1) % columns) bin++;
      const x = from + ((begun % columns) - 8) * grain;
      if (bin > begun) brush.fillRect(x - 2, y - 3, (bin - begun) * grain + 4, 6);
      else brush.drawImage(stamp, x - 8, y - 8, 16, 16);
    }
  }

  /** A mark's picture, as sharp as the screen is. */
  function stampOf(mark) {
    const scale = window.devicePixelRatio || 1;
    if (stamps.get(mark)?.width !== 16 * scale || stamps.get(mark).inks !== inks) {
      const stamp = document.createElement("canvas"), path = new Path2D(), pen = stamp.getContext("2d");
      stamp.inks = inks;
      stamp.width = stamp.height = 16 * scale;
      pen.scale(scale, scale);
      trace(path, mark.shape, 8, 8, 4);
      pen.fillStyle = pen.strokeStyle = colourOf(mark);
      pen.lineWidth = 2;
      if (mark.shape === "cross" || mark.shape === "star") pen.stroke(path); else pen.fill(path);
      stamps.set(mark, stamp);
    }
    return stamps.get(mark);
  }

  const colourOf = (mark) => mark.colour ?? inks.ink;

  /** Adds a shape's outline to a path; the marks and the legend are drawn by it. */
  function trace(path, shape, x, y, size) {
    const line = (...points) => points.forEach(([dx, dy], place) => (place ? path.lineTo(x + dx, y + dy) : path.moveTo(x + dx, y + dy)));
    const s = size;
    if (shape === "circle") {
      path.moveTo(x + s - 1, y);
      path.arc(x, y, s - 1, 0, 7);
    }
    if (shape === "square") path.rect(x - s + 1, y - s + 1, 2 * s - 2, 2 * s - 2);
    if (shape === "diamond") line([0, -s - 1], [s + 1, 0], [0, s + 1], [-s - 1, 0], [0, -s - 1]);
    if (shape === "triangle") line([0, -s], [s, s - 1], [-s, s - 1], [0, -s]);
    if (shape === "cross" || shape === "star") {
      line([-s, -s], [s, s]);
      line([s, -s], [-s, s]);
    }
    if (shape === "star") {
      line([0, -s - 1], [0, s + 1]);
      line([-s - 1, 0], [s + 1, 0]);
    }
  }

  /** What is final, each block joined to the one that it was built on. Where two have the same parent, the chain parts: red. */
  function drawChain() {
    const ends = new Array(run.chain.rows).fill(-Infinity);
    for (const block of run.chain.blocks) drawEdge(block, ends);
    const shown = new Array(run.chain.rows).fill(-Infinity), drawn = new Array(run.chain.rows).fill(-Infinity);
    brush.font = "10px system-ui";
    for (const block of run.chain.blocks) {
      const x = xOf(block.at), y = blockY(block.row);
      if (x < label() - 10 || x > canvas.clientWidth + 10 || (x - drawn[block.row] < 4 && !block.parts)) continue;
      drawn[block.row] = x;
      brush.fillStyle = block.silent || block.view === 0 ? inks.paper : isOff(block) ? inks.red : inks.green;
      brush.strokeStyle = block.parts || isOff(block) ? inks.red : inks.green;
      brush.lineWidth = 2;
      brush.beginPath();
      brush.rect(x - 5, y - 5, 10, 10);
      brush.fill();
      brush.stroke();
      brush.lineWidth = 1;
      if (x - shown[block.row] < 7 * String(block.view).length + 7) continue;
      shown[block.row] = x;
      brush.fillStyle = inks.ink;
      brush.fillText(block.view, x - 4, y - 8);
    }
  }

  const level = (one, other) => one.row === other.row;
  const isOff = (block) => run.chain.parted.length > 0 && block.row > 0;

  /** The line to a block's parent. Of short ones in a row, which blocks cover, every few are drawn. */
  function drawEdge(block, ends) {
    if (block.view === 0) return;
    const x = xOf(block.at), y = blockY(block.row), above = block.above;
    if (x < 0 || (above && xOf(above.at) > label() + width())) return;
    if (above && level(above, block) && x - xOf(above.at) < 4 && x - ends[block.row] < 4) return;
    ends[block.row] = x;
    brush.beginPath();
    brush.strokeStyle = above?.parts || isOff(block) ? inks.red : inks.green;
    brush.lineWidth = above?.parts ? 3 : 1.5;
    if (!above) brush.setLineDash([3, 3]);
    const from = above ? xOf(above.at) : x - 30;
    brush.moveTo(from, above ? blockY(above.row) : y);
    brush.lineTo(from, y);
    brush.lineTo(x, y);
    brush.stroke();
    brush.setLineDash([]);
    brush.lineWidth = 1;
  }

  function drawLabels() {
    const narrow = label() < 70;
    for (let member = 0; member <= run.world.members; member++) {
      const y = TOP + member * laneHeight(), chain = member === run.world.members;
      brush.strokeStyle = inks.line;
      brush.beginPath();
      brush.moveTo(0, y);
      brush.lineTo(canvas.clientWidth, y);
      brush.stroke();
      const ways = run.ways[member] ?? [], split = chain && run.chain.parted.length > 0;
      brush.font = "12px system-ui";
      brush.fillStyle = split ? inks.red : ways.length ? inks.lie : inks.ink;
      brush.fillText(split ? "chain parts" : chain ? "chain" : narrow ? `m. ${member}` : `member ${member}`, 6, y + 16, label() - 8);
      brush.font = "10px system-ui";
      const room = Math.floor((laneHeight() - 20) / 12);
      ways.slice(0, room).forEach((way, place) => brush.fillText(way, 6, y + 28 + 12 * place, label() - 8));
    }
  }

  // ---- what is shown beside the lanes

  /** Shows this run, whole. */
  function choose(next) {
    run = next;
    cursor = null;
    at("hint").style.display = run ? "none" : "block";
    at("zoom").style.display = run ? "block" : "none";
    tell();
    if (run) look(full().least, full().most); else draw();
  }

  /** What is said of the run beside its picture. */
  function tell() {
    const { look: good, text } = run ? verdictOf(run) : { look: "", text: "" };
    at("badge").className = good;
    at("badge").textContent = text;
    at("badge").style.display = text ? "" : "none";
    at("sum").textContent = run ? sumOf(run) : "";
    fillTable();
  }

  function sumOf({ world, ended, finals }) {
    const said = [`${world.members} members, at most ${world.faults} may lie, seed ${world.seed}`];
    if (ended) said.push(`${ended.chain} final, ${ended.contradictions} contradictions, ${ended.named} named, ${ended.blamed} wrongly`);
    if (ended?.reached < world.views) said.push(`view ${world.views} wasn't reached: nothing final since ${((finals.at(-1)?.at ?? 0) / 1000).toFixed(1)} s, to the end at ${(ended.at / 1000).toFixed(1)} s`);
    return said.join("; ");
  }

  function fillTable() {
    const table = at("members"), names = ["member", "is", "view", "finalized", "lives", "refused", "lies"];
    table.replaceChildren();
    at("evidence").replaceChildren();
    at("unnamed").textContent = !run ? "no run is open" : run.evidence.length ? "" : run.ended ? "nobody" : "the run has not ended";
    if (!run) return;
    const head = table.insertRow();
    for (const name of names) head.appendChild(document.createElement("th")).textContent = name;
    for (const member of run.table) {
      const row = table.insertRow();
      row.className = member.is;
      for (const name of names) row.insertCell().textContent = member[name];
    }
    for (const line of run.evidence.slice(0, MOST_NAMED)) {
      at("evidence").appendChild(document.createElement("li")).textContent = shortened(line);
    }
    if (run.evidence.length > MOST_NAMED) at("unnamed").textContent = `and ${run.evidence.length - MOST_NAMED} more`;
  }

  /** Payloads spell their number in their first bytes. */
  function shortened(line) {
    return line.replace(/\b[0-9a-f]{64}\b/g, (digits) => parseInt(digits.slice(0, 16), 16)).replace("epoch 0 ", "");
  }

  /** The legend's small pictures, each drawn by the same lines as its mark. */
  function pictured(shape, colour, hollow = false) {
    const words = [], path = {
      moveTo: (x, y) => words.push(`M${x} ${y}`), lineTo: (x, y) => words.push(`L${x} ${y}`),
      rect: (x, y, w, h) => words.push(`M${x} ${y}h${w}v${h}h${-w}z`), arc: (x, y, r) => words.push(`a${r} ${r} 0 1 0 ${-2 * r} 0a${r} ${r} 0 1 0 ${2 * r} 0`),
    };
    trace(path, shape, 7, 7, 5);
    const lined = hollow || shape === "cross" || shape === "star", svg = document.createElementNS("http://www.w3.org/2000/svg", "svg");
    svg.innerHTML = `<path d="${words.join("")}" fill="${lined ? "none" : colour}" stroke="${colour}" stroke-width="${lined ? 2 : 0}"/>`;
    svg.setAttribute("viewBox", "0 0 14 14");
    return svg;
  }

  /** The legend, in the colours of the page. */
  function fillKeys() {
    at("keys").replaceChildren();
    at("looks").replaceChildren();
    for (const mark of Object.values(MARKS)) {
      const line = document.createElement("label"), box = document.createElement("input");
      box.type = "checkbox";
      box.checked = !hidden.has(mark.name);
      box.onchange = () => {
        if (box.checked) hidden.delete(mark.name); else hidden.add(mark.name);
        draw();
      };
      line.append(box, pictured(mark.shape, colourOf(mark)), mark.name);
      at("keys").append(line);
    }
    const looks = [
      ["square", inks.views[0], false, "a view, by its number"], ["square", inks.down, false, "down"], ["square", inks.green, false, "final block"],
      ["square", inks.green, true, "genesis, or final as an ancestor alone"], ["square", inks.red, false, "red: another branch is final too"],
    ];
    for (const [shape, colour, hollow, text] of looks) {
      const line = document.createElement("span");
      line.append(pictured(shape, colour, hollow), text);
      at("looks").append(line);
    }
  }

  // ---- the mouse

  function hover(x, y) {
    const near = ((right - left) / width()) * 8, found = [];
    for (const { mark, ...event } of run.events.slice(...within(momentOf(x) - near, momentOf(x) + near))) {
      if (mark && !hidden.has(mark.name) && Math.hypot(xOf(event.at) - x, yOf(event.member, mark.row) - y) < 8) found.push(wordsOf(event));
    }
    for (const block of run.chain.blocks) {
      if (Math.hypot(xOf(block.at) - x, blockY(block.row) - y) < 9) found.push(wordsOfBlock(block));
    }
    const tip = at("tip");
    tip.style.display = found.length ? "block" : "none";
    tip.textContent = found.slice(0, 12).join("\n") + (found.length > 12 ? `\nand ${found.length - 12} more: zoom in` : "");
    tip.style.left = `${Math.max(Math.min(x + 12, canvas.clientWidth - tip.offsetWidth - 4), 0)}px`;
    tip.style.top = `${y + 14 + tip.offsetHeight > canvas.clientHeight ? y - tip.offsetHeight - 8 : y + 14}px`;
  }

  function wordsOf({ at: moment, member, event, kind, ...rest }) {
    const fields = Object.entries(rest).map(([name, value]) => `${name} ${value ?? "?"}`);
    return [`${moment} ms`, `member ${member}`, event, kind, ...fields].filter((word) => word !== undefined).join(" ");
  }

  function wordsOfBlock(block) {
    if (block.view === 0) return "genesis" + (block.parts ? ": the chain parts here" : "");
    const on = block.above ? (block.above.view ? `view ${block.above.view} payload ${block.above.payload}` : "genesis") : "a parent that no line tells of";
    const who = block.silent ? "final as an ancestor" : `final at ${[...block.members].sort((one, other) => one - other).join(", ")}, first at ${block.at} ms`;
    return `view ${block.view} payload ${block.payload} on ${on}: ${who}` + (block.parts ? "; the chain parts here" : "");
  }

  /** A run that grows is shown up to this moment; where it is followed, a span of so many milliseconds. */
  function follow(moment, span) {
    cursor = moment;
    if (span) look(moment - span * 0.85, moment + span * 0.15); else draw();
  }

  fillKeys();
  at("in").onclick = () => zoom(0.6);
  at("out").onclick = () => zoom(1 / 0.6);
  at("all").onclick = canvas.ondblclick = () => run && look(full().least, full().most);
  isDark.addEventListener("change", () => { draw(); fillKeys(); });
  window.onresize = draw;
  canvas.addEventListener("wheel", (wheel) => {
    if (!run || wheel.shiftKey) return;
    wheel.preventDefault();
    zoom(Math.exp(wheel.deltaY / 400), momentOf(wheel.offsetX));
  }, { passive: false });
  canvas.onpointerdown = (down) => {
    canvas.setPointerCapture(down.pointerId);
    if (run) hover(down.offsetX, down.offsetY);
  };
  canvas.onpointerleave = () => { at("tip").style.display = "none"; };
  canvas.onpointermove = (move) => {
    if (!run) return;
    if (!move.buttons) return hover(move.offsetX, move.offsetY);
    const by = (move.movementX / width()) * (right - left);
    if (by) { picture.moved(); look(left - by, right - by); }
  };
  /** `moved` is called when somebody looks elsewhere. */
  const picture = { choose, tell, draw, look, widen, zoom, follow, shortened, moved() {}, span: () => [left, right] };
  return picture;
}
