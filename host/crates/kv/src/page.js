"use strict";
// The page of one member: it asks the member itself twice a second, and nobody else.
const at = id => document.getElementById(id);
const show = (id, text) => { at(id).textContent = text; };
let before = null;

async function told(path) {
  const response = await fetch(path, { cache: "no-store" });
  if (!response.ok) throw new Error(`${path}: ${response.status}`);
  return response.json();
}

function row(cells) {
  const line = document.createElement("tr");
  for (const [text, name] of cells) {
    const cell = document.createElement("td");
    cell.textContent = text;
    cell.className = name || "";
    line.append(cell);
  }
  return line;
}

function showStatus(status) {
  show("member", status.member);
  show("members", status.members);
  show("view", status.view);
  show("finalized", status.finalized.view);
  show("applied", status.applied.view);
  show("waited", status.milliseconds_in_view);
  const now = { at: performance.now(), view: status.finalized.view };
  if (before && now.at > before.at) {
    show("rate", ((now.view - before.view) * 1000 / (now.at - before.at)).toFixed(1));
  }
  before = now;
  const peers = [...Array(status.members).keys()].filter(peer => peer !== status.member);
  const is = (list, peer) => list.includes(peer) ? ["yes", "good"] : ["no", "bad"];
  at("peers").replaceChildren(...peers.map(peer => {
    const blocked = status.blocked[peer];
    return row([[peer], is(status.sending_to, peer), is(status.hearing_from, peer), [blocked ?? "", "bad"]]);
  }));
}

function showStore(store, chain) {
  show("keys", store.keys);
  show("bytes", store.bytes);
  show("pending", store.pending);
  at("chain").replaceChildren(...chain.slice(-8).reverse().map(link => row([[link.view], [link.payload]])));
}

async function look() {
  try {
    const [status, store] = await Promise.all([told("/status"), told("/store")]);
    showStatus(status);
    showStore(store, await told(`/chain?after=${Math.max(0, store.view - 64)}`));
    at("trouble").style.display = "none";
  } catch (error) {
    show("trouble", `This member doesn't answer: ${error.message}`);
    at("trouble").style.display = "block";
  }
  setTimeout(look, 500);
}

async function ask(what, key, value) {
  const path = (what === "history" ? "/history/" : "/keys/") + encodeURIComponent(key);
  const method = { put: "PUT", delete: "DELETE" }[what] || "GET";
  const body = what === "put" ? value : undefined;
  const response = await fetch(path + (what === "local" ? "?local" : ""), { method, body, cache: "no-store" });
  const view = response.headers.get("voumlis-view");
  const text = await response.text();
  if (view === null) return text;
  return response.ok ? `${text}   (view ${view}, ${response.headers.get("voumlis-read")})` : `no value (view ${view})`;
}

at("form").onsubmit = async event => {
  event.preventDefault();
  show("said", "…");
  try {
    show("said", await ask(event.submitter.value, at("key").value, at("value").value));
  } catch (error) {
    show("said", error.message);
  }
};
look();
