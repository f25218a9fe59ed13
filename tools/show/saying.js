"use strict";
// What a moment says, in a sentence or a few: what happened, and why it matters for who may do what.
// It needs no browser: `node` takes it as a module, once `Model` is there.

const Saying = (() => {
  const VERBS = {
    r: "read it", w: "write it", x: "search it", wx: "make or drop a name in it", see: "see its list and votes", own: "set its list and votes",
  };

  // ---- the access check of acl(5), for what each list alone would say

  const rightsOf = (fields) => new Set([...fields[2]].filter((letter) => letter !== "-"));

  function entriesOf(list) {
    return list.split(",").map((item) => item.split(":")).filter((fields) => fields.length === 3)
      .map((fields) => ({ kind: fields[0][0], who: fields[1], rights: rightsOf(fields) }));
  }

  // Who a caller is by a list, and whether that grants what is wanted. Its owner sees the list and votes, and nobody else sets them.
  function judge(copy, user, groups, asked) {
    const isOwner = user === String(copy.owner);
    const told = granted(copy, user, groups, asked === "see" ? "r" : asked);
    if (asked === "own") return { who: told.who, may: isOwner };
    return asked === "see" && isOwner ? { who: told.who, may: true } : told;
  }

  function granted(copy, user, groups, wanted) {
    const entries = entriesOf(copy.list);
    const mask = entries.find((one) => one.kind === "m");
    const grants = (entry, isMasked) => [...wanted].every((letter) => entry.rights.has(letter) && (!isMasked || !mask || mask.rights.has(letter)));
    const first = (kind, who) => entries.find((one) => one.kind === kind && one.who === who);
    if (user === String(copy.owner)) return { who: "the owner", may: grants(first("u", ""), false) };
    const named = first("u", user);
    if (named) return { who: "named in it", may: grants(named, true) };
    const own = entries.filter((one) => one.kind === "g" && groups.includes(one.who || String(copy.group)));
    if (own.length) return { who: "in a group of it", may: own.some((one) => grants(one, true)) };
    return { who: "one of all others", may: grants(first("o", ""), false) };
  }

  // What an operation wants of a file or folder by its path; nothing where that is not known.
  function wantedBy(operation, path) {
    const [verb, target] = operation.split(" ");
    const makes = ["file", "folder", "drop"].includes(verb);
    const above = target && target.slice(0, target.lastIndexOf("/")) || "/";
    if (makes && above === path) return "wx";
    if (!makes && target === path) {
      return { read: "r", list: "r", write: "w", getacl: "see", getvotes: "see", setacl: "own", setvotes: "own" }[verb];
    }
    return target && target !== path && target.startsWith(path === "/" ? "/" : `${path}/`) ? "x" : null;
  }

  // All that a job wants of it, each once.
  const wantedOf = (job, path) => [...new Set(job.text.split(" ; ").map((operation) => wantedBy(operation, path)))].filter(Boolean);

  // ---- names

  // A user as the script calls it.
  function userOf(run, number) {
    const name = run.names && run.names.get(String(number));
    return name ? `user ${name} (${number})` : `user ${number}`;
  }

  const count = (number, thing) => `${number} ${thing}${number === 1 ? "" : "s"}`;
  const either = (words, last) => (words.length < 2 ? words.join("") : `${words.slice(0, -1).join(", ")} ${last} ${words[words.length - 1]}`);
  const servers = (numbers) => (numbers.length === 1 ? `server ${numbers[0]}` : `servers ${numbers.slice(0, -1).join(", ")} and ${numbers[numbers.length - 1]}`);
  const upper = (text) => text[0].toUpperCase() + text.slice(1);

  // ---- what is said

  // What the lists say that were shown of a file: the newest, and each older one alone, of all that the job wants of it.
  function access(run, job, suite, shown) {
    const wanted = wantedOf(job, Model.pathOf(run.paths, suite));
    const told = Object.entries(shown).filter(([, copy]) => copy.list && copy.kind !== "absent");
    if (job.user === null || !wanted.length || !told.length) return "";
    const newest = Math.max(...told.map(([, copy]) => copy.prefix));
    const [, top] = told.find(([, copy]) => copy.prefix === newest);
    const now = wanted.map((one) => ({ verb: VERBS[one], ...judge(top, job.user, job.groups, one) }));
    const said = (may) => now.filter((one) => one.may === may).map((one) => one.verb);
    const mays = [said(true).length ? `may ${either(said(true), "and")}` : "", said(false).length ? `may not ${either(said(false), "or")}` : ""];
    const isOld = ([, copy]) => copy.prefix < newest;
    const by = told.some(isOld) ? `list ${newest}, the newer` : `list ${newest}`;
    let text = ` By ${by}, ${userOf(run, job.user)} is ${now[0].who}: ${mays.filter(Boolean).join(", but ")}.`;
    for (const [server, copy] of told.filter(isOld)) {
      wanted.forEach((one, at) => {
        const { may } = judge(copy, job.user, job.groups, one);
        if (may !== now[at].may) text += ` By server ${server}'s older list alone: ${may ? "may" : "may not"} ${now[at].verb}.`;
      });
    }
    return text;
  }

  // How what a server showed stands to what others showed: which of these has the newest, or that this one has.
  function compared(own, server, shown, part, name) {
    const others = Object.entries(shown).filter(([other]) => Number(other) !== server);
    if (!others.length) return "";
    const most = Math.max(...others.map(([, copy]) => copy[part]));
    const who = servers(others.filter(([, copy]) => copy[part] === most).map(([other]) => other));
    if (own < most) return `; ${who} showed ${name} ${most}${own ? ", a newer one" : ""}`;
    return own > most ? `; ${who} showed ${most ? `${name} ${most}, an older one` : `no ${name} yet`}` : "";
  }

  function held(run, event, agent) {
    const { request, reply, server } = event;
    const path = Model.pathOf(run.paths, request.suite);
    const { job } = agent;
    const shown = job && job.shown[request.suite] || {};
    const has = reply.kind === "absent" ? "has no copy of it" : `shows list ${reply.prefix} and content ${reply.content}`;
    const front = `Server ${server} gives its ${request.asks === "upgrade" || request.mode === "exclusive" ? "exclusive" : "shared"} lock of ${path}, and ${has}`;
    const beside = compared(reply.prefix, server, shown, "prefix", "list") + (reply.kind === "absent" ? "" : compared(reply.content, server, shown, "content", "content"));
    const gathered = agent.gathered.find((one) => one.suite === request.suite);
    const votes = gathered ? Model.votesOf(gathered) : null;
    const had = votes ? ` With that the agent has ${count(votes.got, "vote")} of ${path}; ${votes.of} ${votes.of === 1 ? "is" : "are"} needed.` : "";
    return `${front}${beside}.${job ? access(run, job, request.suite, shown) : ""}${had}`;
  }

  const partOf = (run, part) => `list ${part.prefix}${part.takes === "whole" ? ` and content ${part.content}` : ""} of ${Model.pathOf(run.paths, part.suite)}`;

  // What is prepared, each part once, with the servers that have it.
  function byPart(parts) {
    const found = new Map();
    for (const part of parts) {
      const own = [...found.keys()].find((one) => ["suite", "takes", "prefix", "content"].every((name) => one[name] === part[name])) || part;
      found.set(own, [...(found.get(own) || []), part.server]);
    }
    return found;
  }

  function decided(run, event, job) {
    const { request, reply, server } = event;
    if (reply.says !== "verdict") return `Server ${server}, the home, is asked to decide transaction ${request.t}, and answers: ${reply.says}.`;
    if (reply.verdict === "aborted") return `Server ${server}, the home, has recorded already that transaction ${request.t} is aborted: a sweep asked before.`;
    const front = `Server ${server}, the home, records how transaction ${request.t} ends: ${Model.endText(reply.verdict)}. From now on it is so, whatever crashes.`;
    const parts = job && reply.verdict.startsWith("answered") ? [...byPart(job.parts)] : [];
    const told = parts.map(([part, where]) => `${partOf(run, part)} at ${servers(where)}`);
    return told.length ? `${front} In effect: ${told.join("; ")}.` : front;
  }

  // What a server stores once it is told an end: of the copies that it then has those that it had not before.
  function stored(run, place) {
    const { at, server } = run.events[place];
    const before = run.worlds.at(place - 1).servers[server].copies;
    const isNew = (copy) => {
      const own = before[copy.suite];
      return copy.kind !== "absent" && (!own || own.kind === "absent" || own.prefix !== copy.prefix || own.content !== copy.content);
    };
    return (at && at.copies || []).filter(isNew).map((copy) => `list ${copy.prefix} and content ${copy.content} of ${Model.pathOf(run.paths, copy.suite)}`);
  }

  function finished(run, place) {
    const { at, server, request } = run.events[place];
    const lets = at && at.freed && at.freed.length ? ", and lets its locks go" : "";
    const kept = stored(run, place);
    return `Server ${server} is told how transaction ${request.t} ended (${request.verdict.split(" ")[0]})${lets}.${kept.length ? ` It stores ${kept.join("; ")}.` : ""}`;
  }

  function ofRequest(run, place, world) {
    const event = run.events[place];
    const { request, reply, server } = event;
    const agent = world.agents[event.agent];
    const before = run.worlds.at(place - 1).agents[event.agent];
    const job = agent.job || before.job;
    if (!request) return `Server ${server} has no room for what agent ${event.agent} asks.`;
    const path = request.suite === undefined ? "" : Model.pathOf(run.paths, request.suite);
    const doubt = reply.prepared ? ", which is prepared" : "";
    if (reply.says === "down") return `Server ${server} is down, and answers nothing.`;
    switch (request.asks) {
      case "poll": case "upgrade":
        if (reply.says === "held") return held(run, event, { ...agent, job });
        if (reply.says === "busy") return `Transaction ${reply.holder} has a lock of ${path} at server ${server}${doubt}: it is in the way, and this server's votes are not had.`;
        return `Server ${server} has no lock of this transaction on ${path} any more: a crash or a sweep took it.`;
      case "fetch": return reply.says === "given" ? `Server ${server} gives content ${reply.content} of ${path}.` : `Server ${server} has no lock of this transaction on ${path} any more: a crash or a sweep took it.`;
      case "prepare": {
        const parts = request.parts.filter((part) => part.takes !== "nothing").map((part) => partOf(run, part)).join("; ");
        if (reply.says !== "prepared") return `Server ${server} does not prepare, since a lock of transaction ${request.t} is gone there.`;
        return `Server ${server} has prepared${parts ? `: it is ready to store ${parts}` : ", with nothing to store"}. From now on the locks there stand through a crash.`;
      }
      case "decide": return decided(run, event, job);
      case "finish": return finished(run, place);
      case "locks": return `Server ${server} tells the sweep its locks: ${reply.locks ? reply.locks.length : 0}.`;
      case "resolve": return `Server ${server}, the home of transaction ${request.t}, tells how it ended: ${reply.verdict ? Model.endText(reply.verdict) : reply.says}.`;
      case "break": return `The lock of transaction ${request.t} on ${path} at server ${server}, which was not prepared, is broken.`;
      default: return `Agent ${event.agent} asks server ${server}: ${request.asks}.`;
    }
  }

  function ofLine(run, event) {
    const words = Model.lineOf(event.text).trim().split(/\s+/);
    const place = Number(words[1]);
    if (event.nothing) return `This line does nothing: agent ${place} ${event.nothing.replace(/^agent \d+ /, "")}.`;
    switch (words[0]) {
      case "crash": return `Server ${place} crashes: it loses the locks that are not prepared, and keeps all else.`;
      case "return": return `Server ${place} is back, with the copies that it had.`;
      case "forget": return `Agent ${place} forgets what its cache has for site ${words[2]}.`;
      case "begin": return `${upper(userOf(run, words[2]))} asks agent ${place}: ${words.slice(5).join(" ")}.`;
      case "sweep": return `Agent ${place} begins to end what others have left at server ${words[2]}.`;
      case "step": return `Agent ${place} takes ${words[2] && words[2] !== "1" ? `${words[2]} steps` : "a step"}.`;
      case "run": return `Agent ${place} takes steps until its job has ended.`;
      case "audit": return `Server ${place} has recorded ${count(event.audit ? event.audit.denials.length : 0, "denial")}.`;
      default: return event.text;
    }
  }

  function ofOpening(event) {
    const those = event.servers.filter((server) => server.copies.some((copy) => copy.suite === 0 && copy.kind !== "absent"));
    const who = those.length === event.servers.length ? "each server has" : `${servers(those.map((one) => one.server))} ${those.length === 1 ? "has" : "have"}`;
    return `The service opens: ${who} the root folder.`;
  }

  // The sentences about a moment.
  function of(run, place) {
    const event = run.events[place];
    const world = run.worlds.at(place);
    const told = { opening: () => ofOpening(event), standing: () => "The script is played to its end.",
      line: () => ofLine(run, event), request: () => ofRequest(run, place, world) }[event.kind]();
    const { end } = event;
    return end ? `${told} Job ${end.job} of agent ${end.agent} has ended: ${Model.endText(end.text)}.` : told;
  }

  // Why the job ended so that ends at a moment, as `explain` tells it.
  const why = (run, place) => (run.whys && run.whys[run.events[place].event]) || [];

  // The comments of the script that stand above a line, with no empty line between.
  function caption(script, line) {
    const isComment = (at) => /^\s*#/.test(script[at]);
    let at = line - 2;
    while (at >= 0 && script[at].trim() && !isComment(at)) at -= 1;
    const told = [];
    for (; at >= 0 && isComment(at); at -= 1) told.unshift(script[at].replace(/^\s*#\s?/, ""));
    return Model.safe(told.join(" "));
  }

  // The names that a script gives to users, by their numbers.
  function namesIn(script) {
    const found = script.map((line) => line.trim().split(/\s+/)).filter((words) => words[0] === "user" && words.length === 3);
    return new Map(found.map(([, name, number]) => [String(Number(number)), name]));
  }

  return { of, why, byPart, caption, namesIn, judge, userOf };
})();

if (typeof module !== "undefined") module.exports = Saying;
