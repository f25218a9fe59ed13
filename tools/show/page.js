"use strict";
// The page: the picture, what servers and agents have at the moment that is looked at, and the script.

const Page = (() => {
  const given = JSON.parse(document.getElementById("given").textContent);
  let run = Model.read(given.events, given.before);
  run.names = Saying.namesIn(given.script);
  run.whys = given.whys;
  const find = (name) => document.getElementById(name);
  const [slider, moment, says, world, script, hint, life] = ["slider", "moment", "says", "world", "script", "hint", "life"].map(find);
  let here = 0;
  let timer = null;
  // What a page of a session puts on the cards of servers and agents.
  let addsTo = null;

  // An element with these children, of which texts stand as they are.
  function make(name, attributes = {}, ...children) {
    const made = document.createElement(name);
    for (const [key, value] of Object.entries(attributes)) {
      if (key === "onclick") made.addEventListener("click", value);
      else if (value !== null && value !== false) made.setAttribute(key, value);
    }
    made.append(...children.filter((child) => child !== null));
    return made;
  }

  // A word with what it means, where that is known.
  function word(text, key = text) {
    if (!Object.hasOwn(given.meanings, key)) return document.createTextNode(text);
    return make("span", { "data-hint": key, tabindex: "0" }, text);
  }

  // A line as `play` prints it, with its words and codes explained.
  function explained(text) {
    return Model.endText(text).split(/(\s+)/).map((part) => word(part, part.replace(/[;:]$/, "")));
  }

  const kindOf = (text) => (/^(answered|swept)/.test(text) ? "good" : /^undecided/.test(text) ? "open" : "bad");
  const pathOf = (suite) => Model.pathOf(run.paths, suite);

  // ---- servers

  function fileButton(suite) {
    const how = { title: `${pathOf(suite)} through time`, "data-suite": suite, onclick: () => showLife(suite) };
    return make("button", how, pathOf(suite));
  }

  function contentOf(copy) {
    if (copy.names === undefined) return Model.shownBytes(copy.bytes);
    const names = Object.keys(copy.names);
    const more = names.length > 12 ? ` … (${names.length})` : "";
    return names.length ? `names ${names.slice(0, 12).join(" ")}${more}` : "no names";
  }

  function copyPart(state, copy) {
    const late = Model.behind(state, copy).map((part) => ({ prefix: "list", content: "content" })[part]);
    const about = { "data-copy": copy.suite, "data-prefix": copy.prefix, "data-content": copy.content };
    const mark = late.length ? make("span", { class: "stale" }, word("stale"), `: ${late.join(", ")}`) : null;
    return make("div", { class: "copy", ...about },
      fileButton(copy.suite), make("span", { class: "version" }, ` p${copy.prefix} c${copy.content} `),
      make("span", { class: "small" }, `${contentOf(copy)} `), mark,
      make("div", { class: "small" }, `${Model.shortList(copy.list)} ${copy.votes}`));
  }

  function lockPart(state, lock) {
    const isInDoubt = Model.isInDoubt(state, lock);
    const kinds = `lock ${lock.mode}${lock.prepared ? " prepared" : ""}${isInDoubt ? " doubt" : ""}`;
    const about = { class: kinds, "data-lock": `${lock.t} ${lock.suite} ${lock.mode} ${lock.prepared}` };
    const prepared = lock.prepared ? [" ", word("prepared"), ...(isInDoubt ? [", ", word("in doubt")] : [])] : [];
    return make("span", about, `t ${lock.t} ${pathOf(lock.suite)} `, word(lock.mode), ...prepared);
  }

  function serverCard(state, server, number, isNow) {
    const copies = Object.values(server.copies).filter((copy) => copy.kind !== "absent");
    const kinds = `card${server.up ? "" : " isdown"}${isNow ? " now" : ""}`;
    const card = make("div", { class: kinds, "data-server": number, "data-up": server.up },
      make("span", { class: "state" }, server.up ? "up" : word("down")), make("b", {}, `server ${number}`));
    card.append(...copies.map((copy) => copyPart(state, copy)));
    if (server.locks.length) card.append(make("div", {}, ...server.locks.map((lock) => lockPart(state, lock))));
    if (server.denials.length) {
      const last = server.denials[server.denials.length - 1];
      const told = `${server.denials.length} ${server.denials.length === 1 ? "denial" : "denials"} recorded; last t ${last.t}: ${last.denied}`;
      card.append(make("div", { class: "small bad" }, told));
    }
    return card;
  }

  // ---- agents

  // A suite that was gathered: which servers hold it, what its first quorum gave, and whether its content is there.
  // A bar of the votes of a file: how many each server has, and what came of it.
  function votesBar(one, job) {
    const parts = Model.barOf(one, job).map(({ server, votes, says, prefix }) => {
      const list = prefix === null ? "" : `, shows list ${prefix}`;
      const mark = { gave: "", old: " old", "not asked": "" }[says];
      const text = `s${server}${mark === undefined ? ` ${says}` : mark}`;
      const part = make("span", { class: `vote ${says.replace(" ", "-")}`, title: `server ${server}: ${votes} vote${votes === 1 ? "" : "s"}, ${says}${list}` }, text);
      part.style.flexGrow = Math.max(votes, 0.4);
      return part;
    });
    return make("div", { class: "bar", "aria-hidden": "true" }, ...parts);
  }

  function suitePart(one, job) {
    const { got, of } = Model.votesOf(one);
    const where = Model.holdersOf(one).map(({ server, counts }) => `s${server}${counts ? "" : " shared"}`).join(", ");
    const lists = Model.listFrom(one, job).map((server) => `s${server}`).join(" ");
    const content = `content c${one.content} (s${one.source}${one.open ? ", read" : ""})`;
    const known = one.prefix === undefined ? "" : `; list p${one.prefix}${lists ? ` (${lists})` : ""}, ${content}`;
    const about = { class: "small", "data-gathered": `${one.suite} ${one.mode} ${one.newest} ${one.held}` };
    const votes = make("span", { class: got < of ? "open" : "", "data-votes": `${one.suite} ${got} ${of}` }, `${got} ${got === 1 ? "vote" : "votes"}, ${of} needed`);
    return make("div", about, `${pathOf(one.suite)} `, word(one.mode), ": ", votes, `${where ? ` (${where})` : ""}${known}`, votesBar(one, job));
  }

  function gatheredPart(agent) {
    const { gathered, job } = agent;
    const parts = gathered.map((one) => suitePart(one, job));
    const named = (servers) => servers.map((one) => `s${one}`).join(" ");
    const add = (kind, ...told) => parts.push(make("div", { class: kind }, ...told));
    const leaves = (part) => `${pathOf(part.suite)} list p${part.prefix}${part.takes === "whole" ? `, content c${part.content} ${contentOf(part)}` : ""}`;
    const kept = [...Saying.byPart(job.parts)].map(([part, servers]) => `${leaves(part)} at ${named(servers)}`);
    if (job.prepared.length) add("small", word("prepared"), `: ${named(job.prepared)}${kept.length ? `, to store ${kept.join("; ")}` : ""}`);
    if (job.decided) add(`small ${kindOf(job.decided)}`, `decided: ${job.decided}`);
    if (job.told.length) add("small", `told the end: ${named(job.told)}`);
    return parts;
  }

  function entryPart(one, at) {
    const about = { "data-entry": `${one.site} ${one.suite} ${one.prefix} ${one.content}` };
    const late = Model.staleEntry(run.worlds.at(here), one).map((part) => ({ prefix: "list", content: "content" })[part]);
    const mark = late.length ? make("span", { class: "stale" }, " ", word("stale"), `: ${late.join(", ")}`) : null;
    return make("span", about, `${at === 0 ? "" : ", "}${pathOf(one.suite)} p${one.prefix} c${one.content}`, mark);
  }

  // What each site keeps, the newest first.
  function cachePart(cache) {
    const bySite = new Map();
    for (const entry of cache) bySite.set(entry.site, [...(bySite.get(entry.site) || []), entry]);
    return [...bySite].map(([site, entries]) => make("div", { class: "small" }, `cache of site ${site}: `, ...entries.map(entryPart)));
  }

  function agentCard(agent, number, isNow) {
    const { job, end } = agent;
    const about = { class: `card${isNow ? " now" : ""}`, "data-agent": number, "data-stage": agent.stage };
    const card = make("div", about, make("b", {}, `agent ${number}`));
    if (job) {
      const told = job.user === null ? job.text : `${Saying.userOf(run, job.user)}: ${job.text}`;
      card.append(` job ${job.number} (t ${job.t})`, make("div", {}, told));
      const next = agent.next ? [make("span", { class: "next" }, "; asks next: ", word(agent.next), ` of server ${agent.of}`)] : [];
      card.append(make("div", { class: "small" }, word(agent.stage), ...next), ...gatheredPart(agent));
    } else if (end) {
      const ended = { class: kindOf(end.text), "data-ended": `${end.agent}.${end.job}` };
      card.append(make("div", ended, `job ${end.job} `, ...explained(end.text)));
    } else {
      card.append(" has had no job");
    }
    card.append(...cachePart(agent.cache));
    return card;
  }

  function showWorld() {
    const state = run.worlds.at(here);
    const event = run.events[here];
    const server = event.server !== undefined ? event.server : event.at && event.at.server;
    const by = event.by && event.by.agent;
    const servers = state.servers.map((own, number) => serverCard(state, own, number, number === server));
    const agents = state.agents.map((own, number) => agentCard(own, number, number === by));
    const acting = by === undefined ? [] : [make("div", { class: "cards acting" }, ...agents.splice(by, 1))];
    const kept = focusIn(world);
    world.replaceChildren(...acting, make("h2", {}, "servers"), make("div", { class: "cards" }, ...servers),
      make("h2", {}, acting.length ? "other agents" : "agents"), make("div", { class: "cards" }, ...agents));
    if (addsTo) addsTo(world, state, here === run.last);
    kept();
  }

  const FOCUSED = "button, [tabindex]";

  // What has the focus in a part that is made anew, so that it can be given back to the like of it.
  function focusIn(part) {
    const at = [...part.querySelectorAll(FOCUSED)].indexOf(document.activeElement);
    const text = at >= 0 ? document.activeElement.textContent : "";
    return () => {
      const found = at < 0 ? [] : [...part.querySelectorAll(FOCUSED)];
      const like = found.filter((one) => one.textContent === text);
      const next = like.sort((one, other) => Math.abs(found.indexOf(one) - at) - Math.abs(found.indexOf(other) - at))[0];
      if (next) next.focus({ preventScroll: true });
    };
  }

  // What happens at the moment, in a sentence, and what the script says above its line.
  function showSaying() {
    const caption = Saying.caption(given.script, run.events[here].line);
    const why = Saying.why(run, here);
    says.replaceChildren(make("p", { class: "sentence" }, Saying.of(run, here)), ...(why.length ? [make("p", { class: "why" }, why.join(" "))] : []),
      ...(caption ? [make("p", { class: "caption" }, caption)] : []));
  }

  // ---- the script

  const firstOf = new Map();
  const lineParts = [];
  const toldParts = [];

  function toldPart(place, text, kind) {
    const part = make("div", { class: `told ${kind}`, "data-told": text }, ...explained(text));
    toldParts.push([place, part]);
    return part;
  }

  // What `play` prints in an event.
  function printed(event) {
    const lines = [];
    if (event.end) {
      const { agent, job, requests, text } = event.end;
      lines.push([`${agent}.${job} ${requests} ${text}`, kindOf(text)]);
    }
    if (event.audit) {
      const { server, denials } = event.audit;
      lines.push([`audit ${server} ${denials.length}`, ""]);
      for (const item of denials) lines.push([`t ${item.t} uid ${item.uid} ${item.denied}`, ""]);
    }
    return lines;
  }

  function buildScript() {
    const told = new Map();
    firstOf.clear();
    lineParts.length = toldParts.length = 0;
    script.replaceChildren();
    run.events.forEach((event, place) => {
      if (!firstOf.has(event.line)) firstOf.set(event.line, place);
      const parts = printed(event).map(([text, kind]) => toldPart(place, text, kind));
      if (parts.length) told.set(event.line, [...(told.get(event.line) || []), ...parts]);
    });
    given.script.forEach((text, at) => {
      const place = firstOf.get(at + 1);
      const kinds = `line${place === undefined ? " dead" : ""}`;
      const how = { class: kinds, "data-line": at + 1, onclick: () => place !== undefined && go(place) };
      const part = make("div", how, make("span", { class: "number" }, `${at + 1}`), make("span", {}, Model.safe(text)));
      lineParts[at + 1] = part;
      script.append(part, ...(told.get(at + 1) || []));
    });
  }

  function showScript() {
    for (const part of script.querySelectorAll(".line.here")) part.classList.remove("here");
    const part = lineParts[run.events[here].line];
    if (part) {
      part.classList.add("here");
      const top = part.offsetTop - script.offsetTop;
      const isSeen = top >= script.scrollTop && top + 40 <= script.scrollTop + script.clientHeight;
      if (!isSeen) script.scrollTop = top - script.clientHeight / 2;
    }
    for (const [place, one] of toldParts) one.classList.toggle("later", place > here);
    lineParts.forEach((one, number) => one.classList.toggle("later", number > run.events[here].line));
  }

  // ---- a file through time

  function showLife(suite) {
    const leave = (event) => () => {
      life.close();
      go(event);
    };
    const rows = Model.lifeOf(run, suite).map(({ event, server, copy }) => {
      const cells = [make("button", { onclick: leave(event) }, `moment ${event}`), `server ${server}`,
        `p${copy.prefix} c${copy.content}`, Model.shortList(copy.list), copy.votes, contentOf(copy)];
      return make("tr", { class: event <= here ? "here" : "later" }, ...cells.map((cell) => make("td", {}, cell)));
    });
    const head = ["", "stored at", "versions", "list", "votes", "content"].map((text) => make("th", {}, text));
    life.replaceChildren(make("form", { method: "dialog" }, make("button", {}, "close")),
      make("h2", {}, `${pathOf(suite)} (suite ${suite}) through time; what is past stands on a ground of colour`),
      make("table", {}, make("thead", {}, make("tr", {}, ...head)), make("tbody", {}, ...rows)));
    life.showModal();
  }

  // ---- going

  function momentText() {
    const event = run.events[here];
    const where = event.kind === "request" ? `line ${event.line}, agent ${event.agent}` : `line ${event.line}`;
    return `${here} of ${run.last}: ${["line", "request"].includes(event.kind) ? where : event.kind}`;
  }

  function go(place, follows = true) {
    here = Math.max(0, Math.min(run.last, place));
    slider.value = here;
    slider.setAttribute("aria-valuetext", momentText());
    moment.textContent = momentText();
    document.title = `${here} of ${run.last}: ${Saying.of(run, here)}`;
    history.replaceState(null, "", `#${here}`);
    showSaying();
    showWorld();
    showScript();
    picture.show(here, follows);
    if (here === run.last) stop();
  }

  function stop() {
    clearInterval(timer);
    timer = null;
    find("play").textContent = "▶ play";
  }

  function play() {
    if (timer !== null) {
      stop();
      return;
    }
    if (here === run.last) go(0);
    find("play").textContent = "⏸ pause";
    timer = setInterval(() => go(here + 1), Number(find("pace").value));
  }

  function pick(row) {
    if (row.kind === "group") picture.turn(row);
    else if (row.within && row.event === here) picture.turn(row.within);
    go(row.event, false);
  }

  // The moment of the next row, or of the one before.
  function rowFrom(step) {
    const place = picture.placeOf(here) + step;
    const row = picture.shown[Math.max(0, Math.min(picture.shown.length - 1, place))];
    const own = row.rows ? row.rows[row.rows.length - 1] : row;
    go(step > 0 ? Math.max(own.event, here) : own.event);
  }

  // The moment at which the next job begins or ends, or the one before.
  function jobFrom(step) {
    const isTurn = (event) => Boolean(event.end) || (event.kind === "line" && event.by && /^\s*(begin|sweep)\b/.test(event.text));
    for (let at = here + step; at >= 0 && at <= run.last; at += step) if (isTurn(run.events[at])) return go(at);
    return go(step > 0 ? run.last : 0);
  }

  // Large type, and nothing of what is still to come.
  function present() {
    const presents = document.body.classList.toggle("presents");
    // a folded phase tells what comes of it
    find("fold").disabled = presents;
    picture.foldAll(!presents && find("fold").checked);
    go(here);
  }

  const WAYS = { first: () => go(0), back: () => go(here - 1), on: () => go(here + 1), end: () => go(run.last), play };
  const KEYS = {
    Home: WAYS.first, ArrowLeft: WAYS.back, ArrowRight: WAYS.on, End: WAYS.end, " ": play,
    PageDown: () => rowFrom(1), PageUp: () => rowFrom(-1), n: () => jobFrom(1), b: () => jobFrom(-1), p: present,
  };

  function onKey(event) {
    const typed = "select, dialog, input:not([type=range]):not([type=checkbox])";
    const isOwn = event.target.closest(event.key === " " ? "select, dialog, button, input, .row" : typed);
    if (Object.hasOwn(KEYS, event.key) && !isOwn && !event.ctrlKey && !event.metaKey && !event.altKey) {
      event.preventDefault();
      KEYS[event.key]();
    }
  }

  function showHint(event) {
    const part = event.target.closest && event.target.closest("[data-hint]");
    hint.hidden = !part;
    if (!part) return;
    hint.textContent = given.meanings[part.dataset.hint];
    const box = part.getBoundingClientRect();
    hint.style.left = `${Math.max(4, Math.min(box.left, innerWidth - hint.offsetWidth - 8))}px`;
    const isLow = box.bottom + hint.offsetHeight + 8 > innerHeight;
    hint.style.top = `${isLow ? box.top - hint.offsetHeight - 6 : box.bottom + 6}px`;
  }

  const picture = new Drawing.Picture(run, find("names"), find("rows"), pick);

  // The run went on: so many of its events stand, and behind them are these, which this script comes to. It is shown as it is now.
  function goOn(kept, lines, text, whys) {
    given.script = text;
    run = Model.grown(run, kept, lines);
    run.names = Saying.namesIn(text);
    run.whys = whys;
    slider.max = run.last;
    buildScript();
    picture.take(run);
    go(run.last);
  }

  // From now on this is put on the cards, each time they are made.
  function adds(act) {
    addsTo = act;
    showWorld();
  }

  function begin() {
    slider.max = run.last;
    buildScript();
    slider.addEventListener("input", () => go(Number(slider.value)));
    for (const [name, act] of Object.entries(WAYS)) find(name).addEventListener("click", act);
    find("pace").addEventListener("change", () => {
      if (timer === null) return;
      stop();
      play();
    });
    find("fold").addEventListener("change", (event) => {
      picture.foldAll(event.target.checked);
      go(here);
    });
    find("picture").addEventListener("scroll", () => requestAnimationFrame(() => picture.draw()));
    document.addEventListener("keydown", onKey);
    for (const kind of ["mouseover", "focusin"]) document.addEventListener(kind, showHint);
    window.addEventListener("resize", () => {
      picture.measure();
      picture.draw();
    });
    window.addEventListener("beforeprint", () => picture.draw(true));
    window.addEventListener("afterprint", () => picture.draw());
    find("present").addEventListener("click", present);
    const goThere = () => {
      const asked = Number(location.hash.slice(1));
      if (asked !== here || !moment.textContent) go(Number.isInteger(asked) ? asked : 0);
    };
    window.addEventListener("hashchange", goThere);
    goThere();
  }

  begin();
  return { given, make, explained, adds, go, goOn, at: () => here, get run() { return run; } };
})();
