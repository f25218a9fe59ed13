"use strict";
// What the events of a run come to: the world behind each event, the rows of the picture, and the life of a file.
// It needs no browser: `node` takes it as a module.

const Model = (() => {
  const AGENTS = 64;
  // Of so many events in a row the worlds are kept at once; of all others those behind each so many-th.
  const STRETCH = 256;

  // ---- words

  function readVotes(text) {
    const [fields, r, w] = text.split("/");
    const of = fields.split(",").map((field) => (field === "-" ? 0 : Number(field)));
    return { of, r: Number(r), w: Number(w) };
  }

  // A list in few letters: `user::rw-` as `u::rw`.
  function shortList(text) {
    return text.split(",").map((entry) => {
      const fields = entry.split(":");
      const rights = fields.pop().replace(/-/g, "") || "-";
      const head = fields.map((field) => (/^(user|group|mask|other|default)$/.test(field) ? field[0] : field));
      return [...head, rights].join(":");
    }).join(",");
  }

  // Bytes as they are told, and as a text where they are one.
  function shownBytes(digits, most = 24) {
    if (digits === "") return "no bytes";
    const short = digits.length > most ? `${digits.slice(0, most)}… (${digits.length / 2} bytes)` : digits;
    const codes = digits.slice(0, most).match(/../g).map((pair) => parseInt(pair, 16));
    const isText = codes.every((code) => code >= 32 && code < 127);
    return isText ? `${short} “${String.fromCharCode(...codes)}${digits.length > most ? "…" : ""}”` : short;
  }

  // What nobody sees, what a terminal obeys, and what turns the order of letters, is shown by its number.
  const HIDDEN = /[\u0000-\u0008\u000b-\u001f\u007f-\u009f\u061c\u200b-\u200f\u2028-\u202e\u2066-\u2069\ufeff]/g;

  const safe = (text) => text.replace(HIDDEN, (found) => `\\x${found.charCodeAt(0).toString(16).padStart(2, "0")}`);

  // A line of a script: events tell it byte by byte.
  function lineOf(text) {
    try {
      return safe(new TextDecoder("utf-8", { fatal: true }).decode(Uint8Array.from(text, (letter) => letter.charCodeAt(0))));
    } catch {
      return safe(text);
    }
  }

  // How a job ended, with the bytes that are a text as a text.
  function endText(text) {
    return text.replace(/\bread ((?:[0-9a-f]{2})+)\b/g, (all, digits) => `read ${shownBytes(digits)}`);
  }

  const verdictWord = (text) => text.split(" ")[0];

  // ---- paths

  // The paths of files and folders by their numbers, wherever a folder with their names is told.
  function pathsOf(events) {
    const known = new Map([[0, "/"]]);
    const waiting = new Map();
    const place = (folder, name, suite) => {
      if (known.has(suite)) return;
      if (!known.has(folder)) {
        if (!waiting.has(folder)) waiting.set(folder, []);
        waiting.get(folder).push([name, suite]);
        return;
      }
      known.set(suite, `${known.get(folder).replace(/\/$/, "")}/${name}`);
      const below = waiting.get(suite) || [];
      waiting.delete(suite);
      for (const [own, number] of below) place(suite, own, number);
    };
    const learn = (folder, names) => {
      for (const [name, suite] of Object.entries(names || {})) place(folder, name, suite);
    };
    for (const event of events) {
      for (const server of event.servers || []) for (const copy of server.copies) learn(copy.suite, copy.names);
      for (const copy of (event.at && event.at.copies) || []) learn(copy.suite, copy.names);
      if (event.kind !== "request" || !event.request) continue;
      if (event.reply.names) learn(event.request.suite, event.reply.names);
      for (const part of event.request.parts || []) learn(part.suite, part.names);
    }
    return known;
  }

  // ---- worlds

  const bySuite = (copies) => Object.fromEntries(copies.map((copy) => [copy.suite, copy]));

  function raised(newest, suite, prefix, content) {
    const now = newest[suite] || { prefix: 0, content: 0 };
    if (prefix <= now.prefix && content <= now.content) return newest;
    return { ...newest, [suite]: { prefix: Math.max(prefix, now.prefix), content: Math.max(content, now.content) } };
  }

  // The world that a run, or a part of one, opens with. Of a part it is told besides what is in effect, what agents did for the
  // jobs that they have, and how their last jobs ended.
  function opening(event, before = { newest: {}, jobs: [], ends: [] }) {
    const servers = event.servers.map((server) => ({ ...server, copies: bySuite(server.copies) }));
    const agents = event.agents.map((agent) => ({ ...agent, job: null, end: null }));
    let { newest } = before;
    for (const server of event.servers) {
      for (const copy of server.copies) newest = raised(newest, copy.suite, copy.prefix, copy.content);
    }
    for (const end of before.ends) agents[end.agent].end = end;
    for (const [begun, ...requests] of before.jobs) {
      const job = begunBy(begun, begun.by.agent);
      agents[begun.by.agent].job = requests.reduce((own, one) => heard(own, one.server, one.request, one.reply), job);
    }
    return { servers, agents, newest };
  }

  const replaced = (list, place, value) => list.map((own, at) => (at === place ? value : own));

  // A list without some of its things, which are told in its order.
  function without(list, gone, isSame) {
    if (gone.length === 0) return list;
    let at = 0;
    return list.filter((one) => {
      const goes = at < gone.length && isSame(one, gone[at]);
      if (goes) at += 1;
      return !goes;
    });
  }

  const isSameLock = (lock, other) => lock.t === other.t && lock.suite === other.suite;
  const isSameEntry = (one, other) => one.site === other.site && one.suite === other.suite;
  const isBefore = (lock, other) => lock.t < other.t || (lock.t === other.t && lock.suite < other.suite);

  // Locks with those that came, each in its place.
  function withLocks(locks, came) {
    const all = [];
    let at = 0;
    for (const lock of locks) {
      for (; at < came.length && isBefore(came[at], lock); at += 1) all.push(came[at]);
      all.push(lock);
    }
    return [...all, ...came.slice(at)];
  }

  // What a server has once it is told what changed there.
  function changed(server, at) {
    const next = { ...server, up: at.up };
    if (at.freed) next.locks = without(server.locks, at.freed, isSameLock);
    if (at.locks) next.locks = withLocks(next.locks, at.locks);
    if (at.copies && at.copies.length) next.copies = { ...server.copies, ...bySuite(at.copies) };
    if (at.denials) next.denials = [...server.denials, ...at.denials];
    return next;
  }

  // The job that a line begins, as it is told.
  function begunBy(event, agent) {
    const words = lineOf(event.text).trim().split(/\s+/);
    const isSweep = words[0] === "sweep";
    return {
      number: event.by.jobs - 1,
      t: AGENTS * (event.by.jobs - 1) + agent,
      text: isSweep ? `sweeps server ${words[2]}` : words.slice(5).join(" "),
      user: isSweep ? null : words[2], groups: isSweep ? [] : words[3].split(","),
      line: event.line, refused: {}, shown: {}, parts: [], prepared: [], decided: null, told: [],
    };
  }

  // What a job has once it is told a reply.
  function heard(job, server, request, reply) {
    if (!job || !request) return job;
    if (["poll", "upgrade"].includes(request.asks) && reply.says !== "held") {
      const refused = { ...job.refused[request.suite], [server]: reply.says };
      return { ...job, refused: { ...job.refused, [request.suite]: refused } };
    }
    if (["poll", "upgrade"].includes(request.asks)) {
      return { ...job, shown: { ...job.shown, [request.suite]: { ...job.shown[request.suite], [server]: reply } } };
    }
    if (request.asks === "prepare") {
      if (reply.says !== "prepared") return job;
      // each server is sent what it is to store, which not all are alike
      const kept = request.parts.filter((part) => part.takes !== "nothing").map((part) => ({ ...part, server }));
      return { ...job, parts: [...job.parts, ...kept], prepared: [...job.prepared, server] };
    }
    if (request.asks === "decide") {
      return { ...job, decided: reply.says === "verdict" ? verdictWord(reply.verdict) : reply.says };
    }
    if (request.asks === "finish") return { ...job, told: [...job.told, server] };
    return job;
  }

  // From a decision on, what was prepared is in effect.
  function inEffect(newest, job, event) {
    const isDecided = event.request && event.request.asks === "decide" && event.reply.says === "verdict";
    if (isDecided && job && verdictWord(event.reply.verdict) === "answered") {
      for (const part of job.parts) newest = raised(newest, part.suite, part.prefix, part.content || 0);
    }
    return newest;
  }

  function after(world, event) {
    if (event.kind === "standing") return world;
    let { servers, agents, newest } = world;
    if (event.at) {
      servers = replaced(servers, event.at.server, changed(servers[event.at.server], event.at));
      for (const copy of event.at.copies || []) newest = raised(newest, copy.suite, copy.prefix, copy.content);
    }
    if (event.by) {
      const before = agents[event.by.agent];
      let job = event.by.jobs > before.jobs ? begunBy(event, event.by.agent) : before.job;
      if (event.kind === "request") job = heard(job, event.server, event.request, event.reply);
      newest = inEffect(newest, job, event);
      // what is not told of an agent is as it was, but for what it asks next
      const { dropped = [], put = [], ...told } = event.by;
      const kept = without(before.cache, [...dropped].reverse(), isSameEntry);
      const own = { next: undefined, of: undefined, ...told, cache: put.length ? [...[...put].reverse(), ...kept] : kept };
      if (event.end) Object.assign(own, { job: null, end: event.end });
      agents = replaced(agents, event.by.agent, { ...before, job, ...own });
    }
    return { servers, agents, newest };
  }

  // The worlds behind the events of a run. Most are made again where they are asked for, since what a server or an agent has
  // may be large.
  class Worlds {
    constructor(events, before) {
      this.events = events;
      this.starts = [opening(events[0], before)];
      this.kept = { number: -1, worlds: [] };
    }

    // The world behind an event.
    at(place) {
      const number = Math.floor(place / STRETCH);
      if (this.kept.number !== number) this.kept = { number, worlds: this.stretch(number) };
      return this.kept.worlds[place - number * STRETCH];
    }

    // The worlds of events of which the first, so many, are these.
    grown(events, kept) {
      const next = new Worlds(events);
      const starts = this.starts.slice(0, Math.ceil(kept / STRETCH));
      if (starts.length) next.starts = starts;
      return next;
    }

    // The worlds of a stretch, and the one with which the next stretch begins.
    stretch(number) {
      while (this.starts.length <= number) this.worldsFrom(this.starts.length - 1);
      return this.worldsFrom(number);
    }

    worldsFrom(number) {
      const worlds = [this.starts[number]];
      const next = number * STRETCH + 1;
      for (const event of this.events.slice(next, next + STRETCH)) worlds.push(after(worlds[worlds.length - 1], event));
      if (worlds.length > STRETCH) this.starts[number + 1] = worlds.pop();
      return worlds;
    }
  }

  // In what a copy is behind what is in effect elsewhere.
  function behind(world, copy) {
    const newest = world.newest[copy.suite];
    return ["prefix", "content"].filter((part) => newest && copy[part] < newest[part]);
  }

  // Which servers hold a lock on a suite that was gathered, in the mode that is wanted or not.
  function holdersOf(suite) {
    return [...suite.held].flatMap((letter, server) => (letter === "-" ? [] : [{ server, counts: letter === "x" || suite.mode === "shared" }]));
  }

  // How many votes those have that hold what is wanted, and how many are wanted, by the newest votes that were shown.
  function votesOf(suite) {
    const votes = readVotes(suite.votes);
    const got = holdersOf(suite).reduce((sum, { server, counts }) => sum + (counts ? votes.of[server] || 0 : 0), 0);
    return { got, of: suite.mode === "exclusive" ? votes.w : votes.r };
  }

  // A bar of votes: each server that has some, how many, and whether it gave them, showed an old list, or was in the way.
  function barOf(suite, job) {
    const votes = readVotes(suite.votes);
    const held = new Map(holdersOf(suite).map(({ server, counts }) => [server, counts]));
    const shown = (job && job.shown[suite.suite]) || {};
    const refused = (job && job.refused[suite.suite]) || {};
    return votes.of.flatMap((count, server) => {
      if (!count && !held.has(server)) return [];
      const isOld = Object.hasOwn(shown, server) && shown[server].prefix < suite.newest;
      const says = held.get(server) ? (isOld ? "old" : "gave") : Object.hasOwn(refused, server) ? refused[server] : "not asked";
      return [{ server, votes: count, says, prefix: Object.hasOwn(shown, server) ? shown[server].prefix : null }];
    });
  }

  // Which servers showed the list that counts.
  function listFrom(suite, job) {
    const shown = (job && job.shown[suite.suite]) || {};
    return Object.entries(shown).filter(([, copy]) => copy.prefix === suite.prefix).map(([server]) => Number(server));
  }

  // In what an entry of a cache is behind what is in effect.
  function staleEntry(world, entry) {
    const newest = world.newest[entry.suite];
    return ["prefix", "content"].filter((part) => newest && entry[part] !== undefined && entry[part] < newest[part]);
  }

  // Whether a lock is in doubt: it is prepared, and the home of its transaction is down.
  function isInDoubt(world, lock) {
    const home = (lock.t % AGENTS + Math.floor(lock.t / AGENTS)) % world.servers.length;
    return lock.prepared && !world.servers[home].up;
  }

  // ---- rows of the picture

  function pathOf(paths, suite) {
    return paths.get(suite) || `suite ${suite}`;
  }

  function partWords(paths, part) {
    const path = pathOf(paths, part.suite);
    if (part.takes === "nothing") return path;
    return part.takes === "prefix" ? `${path} p${part.prefix}` : `${path} p${part.prefix} c${part.content}`;
  }

  function askedWords(paths, event) {
    const { request } = event;
    if (!request) return "asks for more than there is room for";
    const own = request.t === undefined || request.t % AGENTS === event.agent ? "" : `t ${request.t} `;
    switch (request.asks) {
      case "poll": return `poll ${pathOf(paths, request.suite)} ${request.mode}`;
      case "upgrade": case "fetch": return `${request.asks} ${pathOf(paths, request.suite)}`;
      case "break": return `t ${request.t} break ${pathOf(paths, request.suite)}`;
      case "prepare": return `prepare ${request.parts.map((part) => partWords(paths, part)).join("; ")}`;
      case "decide": return `decide ${verdictWord(request.decision)}`;
      case "finish": return `${own}finish ${verdictWord(request.verdict)}`;
      case "resolve": return `t ${request.t} resolve`;
      default: return request.asks;
    }
  }

  function repliedWords(reply) {
    switch (reply.says) {
      case "held": return `held p${reply.prefix} c${reply.content}`;
      case "busy": return `busy t ${reply.holder}${reply.prepared ? " prepared" : ""}`;
      case "given": return `given c${reply.content}`;
      case "verdict": return verdictWord(reply.verdict);
      case "locked": return reply.locks.length ? `${reply.locks.length} locks` : "no locks";
      default: return reply.says;
    }
  }

  // What a line of the script says of a server or an agent; nothing, where its requests tell all.
  function saidBy(event, before) {
    const words = event.text.trim().split(/\s+/);
    const nothing = event.nothing ? ` (nothing happens: ${event.nothing})` : "";
    const place = Number(words[1]);
    switch (words[0]) {
      case "crash": return { server: place, text: "crashes" };
      case "return": return { server: place, text: "restarts" };
      case "forget": return { agent: place, text: `forgets its cache of site ${Number(words[2])}` };
      case "begin": case "sweep": {
        if (nothing) return { agent: place, text: `${words[0]}${nothing}` };
        const job = begunBy(event, place);
        const front = `job ${job.number} (t ${job.t})`;
        const user = job.user === null ? " " : `, user ${job.user}: `;
        return { agent: place, text: `${front}${user}${job.text}` };
      }
      default: return nothing ? { agent: place, text: `${words[0]}${nothing}` } : null;
    }
  }

  // Requests of one phase that follow on each other have one key.
  function phaseOf(event) {
    const { request } = event;
    if (!request) return null;
    const about = ["poll", "upgrade", "break"].includes(request.asks) ? ` ${request.suite}` : "";
    const word = request.asks === "upgrade" ? "poll" : request.asks;
    const whose = ["finish", "break"].includes(word) ? ` ${request.t}` : "";
    const folds = ["poll", "prepare", "finish", "break"].includes(word);
    return folds ? `${event.line} ${event.agent} ${word}${about}${whose}` : null;
  }

  const GOOD = ["held", "prepared", "done"];

  // The votes that are had of a suite behind an event.
  function votesThen(world, event) {
    const one = world.agents[event.agent].gathered.find((own) => own.suite === event.request.suite);
    return one ? votesOf(one) : null;
  }

  function groupWords(paths, events, world) {
    const { request } = events[0];
    const good = events.filter((event) => GOOD.includes(event.reply.says)).length;
    const count = good === events.length ? `×${good}` : `${good} of ${events.length}`;
    switch (request.asks) {
      case "poll": case "upgrade": {
        const votes = votesThen(world, events[events.length - 1]);
        if (!votes) return { text: `locks of ${pathOf(paths, request.suite)}: ${good} of ${events.length}`, good };
        const isEnough = votes.got >= votes.of;
        return { text: `locks of ${pathOf(paths, request.suite)}: ${votes.got} vote${votes.got === 1 ? "" : "s"}, ${votes.of} needed`, good: isEnough ? events.length : good };
      }
      case "prepare": return { text: `prepare ${count}`, good };
      case "finish": return { text: `finish ${verdictWord(request.verdict)} ${count}`, good };
      default: return { text: `${request.asks} ${count}`, good };
    }
  }

  // The rows: what is said, requests, groups of requests with those that they fold, and how jobs ended.
  function rowsOf(events, paths, worlds) {
    const rows = [];
    let key = null;
    events.forEach((event, place) => {
      if (event.kind === "line") {
        key = null;
        const said = saidBy(event);
        if (said) rows.push({ kind: "said", event: place, ...said });
      } else if (event.kind === "request") {
        const own = phaseOf(event);
        const row = { kind: "request", event: place, agent: event.agent };
        const last = rows[rows.length - 1];
        if (own !== null && own === key) {
          if (last.kind === "group") last.rows.push(row);
          else rows[rows.length - 1] = { kind: "group", event: last.event, agent: event.agent, rows: [last, row] };
        } else {
          rows.push(row);
        }
        key = own;
      }
      if (event.end) {
        key = null;
        const { agent, job, requests, text } = event.end;
        rows.push({ kind: "end", event: place, agent, text: `${agent}.${job} ${requests} ${endText(text)}` });
      }
    });
    for (const row of rows) {
      if (row.kind !== "group") continue;
      const last = row.rows[row.rows.length - 1].event;
      Object.assign(row, groupWords(paths, row.rows.map((own) => events[own.event]), worlds.at(last)));
    }
    return rows;
  }

  // ---- the life of a file

  // What was stored of a suite, and where: each change of a copy, with its list, votes and content.
  function lifeOf(run, suite) {
    const life = [];
    run.events.forEach((event, place) => {
      const at = event.kind === "opening" ? event.servers : event.at && event.at.copies ? [event.at] : [];
      const told = at.flatMap((server) => server.copies.map((copy) => [server.server, copy]));
      for (const [server, copy] of told) {
        const before = place === 0 ? null : run.worlds.at(place - 1).servers[server].copies[suite];
        const isSame = before && before.prefix === copy.prefix && before.content === copy.content;
        if (copy.suite === suite && copy.kind !== "absent" && !isSame) life.push({ event: place, server, copy });
      }
    });
    return life;
  }

  // ---- a run

  // The run, or the part of one, that events tell; of a part with what was before.
  function read(lines, before) {
    const events = lines.map((line) => JSON.parse(line));
    const was = before ? { ...before, jobs: before.jobs.map((told) => told.map((line) => JSON.parse(line))) } : undefined;
    return runOf(events, new Worlds(events, was));
  }

  function runOf(events, worlds) {
    const paths = pathsOf(events);
    return { events, worlds, paths, rows: rowsOf(events, paths, worlds), last: events.length - 1 };
  }

  // A run that went on: its first events, so many, and behind them others.
  function grown(run, kept, lines) {
    const events = [...run.events.slice(0, kept), ...lines.map((line) => JSON.parse(line))];
    return runOf(events, run.worlds.grown(events, kept));
  }

  return {
    read, grown, behind, holdersOf, votesOf, barOf, listFrom, staleEntry, isInDoubt, lifeOf, pathOf, askedWords, repliedWords, shortList,
    shownBytes, endText, lineOf, safe,
  };
})();

if (typeof module !== "undefined") module.exports = Model;
