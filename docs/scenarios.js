"use strict";
// Scenarios as play.html has them: their lines, and the values that controls hold (docs/WORLD.md).

/** The greatest number of a line. It stands for never, where a line wants a moment at which something ends. */
const MOST_NUMBER = 1e9;
/** How a node asks for what it lacks, by the word that a line has for it. */
const AGAIN = { "once": "once in a life", "with-nullify": "again with each repeated nullify" };
/** What is told once: each line's word, its group, and for each value its name, what stands without the line, and sensible bounds, or the words that it may be and what they say. */
const LINES = [
  ["members", "The committee", [["members", 4, 1, 64]]],
  ["views", "The committee", [["views to finalize", 10, 1, 10000]]],
  ["until", "The committee", [["or until, ms", 600000, 1, 1e8]]],
  ["delay", "The network", [["a packet takes at least, ms", 5, 0, 10000], ["at most, ms", 40, 0, 10000]]],
  ["lose", "The network", [["lost, of a thousand", 0, 0, 1000]]],
  ["repeat", "The network", [["come twice, of a thousand", 0, 0, 1000]]],
  ["work", "The application", [["thinks at least, ms", 1, 0, 10000], ["at most, ms", 5, 0, 10000]]],
  ["doubt", "The application", [["bad verdicts, of a thousand", 0, 0, 1000]]],
  ["clock", "The nodes", [["clocks are as coarse as, ms", 10, 1, 10000]]],
  ["times", "The nodes", [["leader's deadline, ms", 400, 1, 60000], ["verdict's deadline, ms", 800, 1, 60000], ["a nullify is repeated after, ms", 1000, 1, 60000]]],
  ["term", "The nodes", [["views of a term", 1, 1, 100], ["given up after, ms (0: never)", 0, 0, 1e6], ["views ahead", 0, 0, 1000]]],
  ["skip", "The nodes", [["a leader counts as silent after, ms (0: never)", 0, 0, 1e6]]],
  ["keep", "The nodes", [["views kept below the last final one", 10, 1, 1000]]],
  ["repair", "The nodes", [["what a node lacks it asks for", "with-nullify", AGAIN], ["for so many views to leave at once (0: all)", 1024, 0, 1e6]]],
  ["reopen", "The hosts", [["a node without a new view is opened again after, ms (0: never)", 0, 0, 1e6]]],
  ["rewrite", "The hosts", [["a record is rewritten behind so many final views (0: never)", 0, 0, 10000]]],
];
/** What may be told several times by numbers alone: each list's word, and for each number what stands before it, its name and sensible bounds; a member is one of the committee. */
const LISTS = {
  crashes: ["crash", [["member", "who crashes"], ["in view", "in which view", 1, 10000], ["after calls", "after so many calls of its disk", 0, 10000], ["down, ms", "for so long", 0, 1e6]]],
  joins: ["join", [["member", "who joins late"], ["at, ms", "joins at", 1, 1e9]]],
  downs: ["down", [["member", "who is killed"], ["from, ms", "killed at", 0, 1e8], ["until", "opened again at", 1, 1e9]]],
};
/** What a liar does, by the word that a line has for it. */
const WAYS = {
  "silent": "sends nothing", "two-votes": "sends one vote to members of even index and another to those of odd index", "two-proposals": "as a leader proposes one payload to members of even index and another to those of odd index",
  "two-faced": "votes on each side, even and odd, for what that side votes for", "forged": "sends spoiled packets", "withheld": "sends nothing to members of odd index",
  "asking": "asks others for views that it needn't know of", "stale": "sends certificates long past",
};

/** The values of a scenario without a line. */
function plainScenario() {
  const settings = Object.fromEntries(LINES.map(([word, , fields]) => [word, fields.map(([, without]) => without)]));
  return { seed: 1, settings, liars: [], crashes: [], joins: [], downs: [], cuts: [] };
}

/** The values of the first scenario of a text, or nothing where a line has a form that no control has: the module says what is wrong with it. */
function scenarioOf(text) {
  const found = plainScenario();
  for (const line of text.split("\n")) {
    const [word, ...rest] = line.split(" ");
    if (line === "" || line.startsWith("#") || word === "format" || word === "lines") continue;
    if (line === "run") break;
    if (!takeLine(found, word, rest)) return null;
  }
  return found;
}

/** Takes a line up. Whether it has a form that controls have. */
function takeLine(found, word, rest) {
  const fields = LINES.find(([it]) => it === word)?.[2], list = Object.keys(LISTS).find((it) => LISTS[it][0] === word), numbers = rest.map(numberOf);
  const are = (values, count) => values.length === count && !values.includes(null);
  if (fields) {
    found.settings[word] = rest.map((it, place) => valueOf(it, fields[place]));
    if (word === "term" && numbers[1] === MOST_NUMBER) found.settings.term[1] = 0;
    return are(found.settings[word], fields.length);
  }
  if (list) {
    found[list].push(numbers);
    return are(numbers, LISTS[list][1].length);
  }
  switch (word) {
    case "seed": found.seed = numbers[0]; return are(numbers, 1);
    case "lie": found.liars.push({ member: numbers[0], ways: rest.slice(1) }); return are(numbers.slice(0, 1), 1) && rest.length > 1 && rest.slice(1).every((way) => Object.hasOwn(WAYS, way));
    case "cut": found.cuts.push([...numbers.slice(0, 2), rest[2]]); return are(numbers.slice(0, 2), 2) && rest.length === 3 && isSide(rest[2]);
    default: return false;
  }
}

const numberOf = (word) => (/^\d+$/.test(word) && Number(word) <= MOST_NUMBER ? Number(word) : null);
/** Whether these are members of the one side of a cut. */
const isSide = (word) => /^\d+(,\d+)*$/.test(word);

/** What a word says for this value, or nothing. */
function valueOf(word, field) {
  const words = field?.[2];
  if (typeof words !== "object") return numberOf(word);
  return Object.hasOwn(words, word) ? word : null;
}

/** The lines of these values: those alone that say something else than no line. */
function textOf({ seed, settings, liars, cuts, ...lists }) {
  const lines = [`seed ${seed}`];
  for (const [word, , fields] of LINES) {
    const values = settings[word];
    if (word === "members") lines.unshift(`members ${values[0]}`);
    else if (values.some((value, place) => value !== fields[place][1])) lines.push(`${word} ${written(word, values).join(" ")}`);
  }
  for (const { member, ways } of liars) if (ways.length) lines.push(`lie ${member} ${ways.join(" ")}`);
  for (const [list, [word]] of Object.entries(LISTS)) for (const numbers of lists[list]) lines.push(`${word} ${numbers.join(" ")}`);
  for (const cut of cuts) lines.push(`cut ${cut.join(" ")}`);
  return lines.join("\n");
}

/** A line's values as it has them: that of a term has no word for never. */
function written(word, values) {
  return word === "term" ? values.map((value, place) => (place === 1 && value === 0 ? MOST_NUMBER : value)) : values;
}

/** What a scenario is about, in a sentence. */
function sentenceOf({ settings, liars, crashes, joins, downs, cuts }) {
  const [members] = settings.members, [again, window] = settings.repair, faults = Math.floor((members - 1) / 3), lying = liars.filter(({ ways }) => ways.length), said = [];
  const count = (number, one, many) => `${number} ${number === 1 ? one : many}`;
  if (lying.length) said.push(`${lying.map(({ member, ways }) => `${member} (${ways.join(", ")})`).join(", ")} ${lying.length === 1 ? "lies" : "lie"}, ${lying.length > faults ? `and only ${faults} may` : `as ${faults} may`}`);
  if (crashes.length) said.push(count(crashes.length, "crash inside a write", "crashes inside a write"));
  if (joins.length) said.push(count(joins.length, "member joins late", "members join late"));
  const gone = downs.filter(([, , until]) => until >= settings.until[0]).length, back = downs.length - gone;
  if (gone) said.push(count(gone, "member is dead to the end", "members are dead to the end"));
  if (back) said.push(count(back, "member is killed and opened again", "times a member is killed and opened again"));
  if (cuts.length) said.push(count(cuts.length, "cut of the network", "cuts of the network"));
  if (settings.lose[0] || settings.repeat[0]) said.push(`of a thousand packets ${settings.lose[0]} are lost and ${settings.repeat[0]} come twice`);
  if (settings.doubt[0]) said.push(`of a thousand verdicts ${settings.doubt[0]} are bad`);
  if (again === "once" || window !== 1024) said.push(`what a node lacks it asks for ${AGAIN[again]}${window ? `, for ${count(window, "view", "views")} to leave at once` : ""}`);
  if (settings.reopen[0]) said.push(`a node without a new view for ${settings.reopen[0] / 1000} s is opened again`);
  if (settings.rewrite[0]) said.push(`a record is rewritten behind ${count(settings.rewrite[0], "final view", "final views")}`);
  if (settings.term[0] > 1) said.push(`terms of ${settings.term[0]} views${settings.term[2] ? `, ${settings.term[2]} ahead` : ""}`);
  return `${count(members, "member", "members")}, ${count(settings.views[0], "view", "views")}: ${said.join("; ") || "nobody lies and nothing is lost"}.`;
}

/** The scenarios of a text, each with its lines and what its comments say. */
function scenariosOf(text) {
  return text.split(/^run$/m).map((each) => each.trim()).filter(Boolean).map((each) => {
    const lines = each.split("\n"), told = lines.filter((line) => line.startsWith("#")).map((line) => line.slice(1).trim()).join(" ");
    return { told, text: lines.filter((line) => !line.startsWith("#")).join("\n") };
  });
}
