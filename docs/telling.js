"use strict";
// What an event of a run means, in words: what happened, and by which rule.

/** What led a member on to a view, by the last of its marks that can. */
const LED = {
  "judged": "the application's verdict on the view before is good", "certified nullification": "a nullification covers the view before",
  "certified finalization": "a finalization of the view before is there", "finalized": "a finalization of the view before is there",
};

/** What happened and why, as [what, why]. `led` is the name of the member's mark before. */
function told(event, { world, ways }, led) {
  const { member, view, payload, parent, kind } = event, quorum = world.members - world.faults, who = `Member ${member}`;
  const votes = `${quorum} of ${world.members} members`, liars = Object.keys(ways).length, shared = 2 * quorum - world.members;
  switch (kind === undefined || ["lied", "found"].includes(event.event) ? event.event : `${event.event} ${kind}`) {
    case "opened": return event.life > 1
      ? [`${who} is up again, in view ${view}.`, "It went through what its disk kept. Votes and certificates stand on the disk before they are sent, so it contradicts nothing that it said before."]
      : [`${who} opens its record, in view ${view}.`, "What stands in a record counts as if it were done now. This one is empty."];
    case "entered": return [`${who} enters view ${view}.`, view === 1 ? "Views begin with 1." : `A view is entered by a good verdict or a finalization of the one before, or by a nullification: ${LED[led] ?? (ways[member] ? "this one is a liar, over a node of its own" : "one of these came in")}.`];
    case "built": return [`${who} leads view ${view}: its application builds payload ${payload ?? "?"} on view ${parent}.`, "A leader builds on the highest view that is final or judged good, where all views between are given up by a quorum; a view that is skipped needs a nullification."];
    case "voted notarize": return [`${who} votes to notarize payload ${payload} in view ${view}.`, "The leader's proposal stands on a view that may carry it, and the application found it good. A member notarizes once a view, and not after it gave the view up."];
    case "voted nullify": return [`${who} gives view ${view} up.`, "It waited until a deadline: for a proposal, for a good verdict, or for the term; or it learned a reason not to. It will not finalize this view any more."];
    case "voted finalize": return [`${who} votes to finalize payload ${payload} in view ${view}.`, "There is a notarization, and the verdict on it is good. A member votes at most one of nullify and finalize in a view."];
    case "certified notarization": return [`${who} has a notarization of payload ${payload} in view ${view}.`, `${votes}, a quorum, voted to notarize it. Now the application is asked whether it may stand.`];
    case "certified nullification": return [`${who} has a nullification of view ${view}.`, `${votes}, a quorum, gave it up, and with it the rest of its term: a leader may skip it.`];
    case "certified finalization": return [`${who} has a finalization of payload ${payload} in view ${view}.`, `${votes}, a quorum, voted to finalize it.`];
    case "judged": return [`${who}'s application says yes to payload ${payload} of view ${view}.`, "The verdict is recorded. Only behind it the member may vote to finalize, and it goes on to the next view."];
    case "finalized": return [`At member ${member} payload ${payload} of view ${view} is final.`, `It, or what was built on it, was finalized by a quorum. Two quorums share at least ${shared} members${liars > world.faults
      ? `; ${liars} lie here, more than the ${world.faults} that may, so another chain can be final too.` : `, more than the ${world.faults} that may lie: so another chain can't be final too.`}`];
    case "rewrote": return [`${who}'s host rewrites its record, which begins with the finalization of view ${event.floor} now.`, "What doesn't reach above that view is dropped, on the disk and from the node's memory: nothing rests on it any more. Nothing is handed out."];
    case "found": return [`${who} finds in its record: ${kind}, view ${view}${payload === undefined ? "" : `, payload ${payload}`}.`, "An opening goes through the record from its beginning, and reports all that stands there once more."];
    case "crashed": if (event.in) return [`${who} crashes while its record is rewritten; ${event.bytes} bytes are left on its two disks.`, "The record from before stays whole on the one, until the new one is whole on the other. The next opening finds this one or that."];
      return [`${who} crashes inside a call of its disk; ${event.bytes} bytes are left there.`, "Of the write some bytes stand, of what wasn't synced a part. Nothing that rests on the lost part was handed out."];
    case "down": return [`${who} is killed, and ${event.until < MOST_NUMBER ? `will be opened again at ${(event.until / 1000).toFixed(2)} s` : "stays so"}.`, "What it wrote stays on its disk. Packets that come to it by then are lost, and nobody sends them again."];
    case "away": return [`${who} isn't there yet, and joins at ${(event.until / 1000).toFixed(2)} s.`, "What is sent to it by then is lost, and nobody sends it again."];
    case "joined": return view > 0
      ? [`${who} joins, and starts from payload ${payload ?? "?"} of view ${view}, which is final.`, "Its host was given that finalization by a member that runs, and needn't believe it: a finalization proves itself. Of what lies below the member knows nothing."]
      : [`${who} joins, and starts from genesis.`, "Nothing is final yet."];
    case "closed": return [`${who}'s host closes its node, which stands in view ${view}, and opens the record again.`, `It entered no view for ${event.waited / 1000} s. A new life asks anew for all that it lacks.`];
    case "lost": return [`${who}'s record isn't opened again.`, "This never comes where the disk kept what disks keep: it would be a broken promise."];
    case "lied": return [`${who} lies: it ${WAYS[kind] ?? kind}${view === undefined ? "" : `, in view ${view}`}.`, `Up to ${world.faults} of ${world.members} may. What it signs twice is evidence, wherever the two votes meet.`];
    case "blocked": return [`${who} blocks member ${event.other}.`, "It sent what can't be read, bears another's name, contradicts its own vote or doesn't certify."];
    case "contradicts": return [`CONTRADICTION: at member ${member} payload ${payload} of view ${view} is final, on no one chain with what others have.`, `That needs more than ${world.faults} liars, and each of at least ${world.faults + 1} signed two votes that contradict each other: the audit names them.`];
    case "saw evidence": return [`${who} holds two votes of one member in view ${view} that contradict each other.`, "No rule allows both: whoever signed both lied. Such a report is what an audit goes by."];
    default: return [`${who}: ${event.event}${kind ? ` ${kind}` : ""}.`, ""];
  }
}

/** Whom the audit names, in words: where the chain parts, at least one more than may lie. */
function verdictTold(run) {
  const named = new Set(run.evidence.map((line) => / signer (\d+)/.exec(line)?.[1]).filter(Boolean).map(Number));
  const list = [...named].sort((one, other) => one - other), { faults } = run.world, who = list.join(", ");
  if (!run.ended) return "";
  if (run.ended.contradictions) return `The chain parts. At most ${faults} may lie, so at least ${faults + 1} have signed both sides, and the audit names ${list.length}: ${who || "nobody"}.`;
  return list.length ? `One chain. The audit names ${who}, and nobody else.` : "One chain, and the audit names nobody.";
}
