"use strict";
// The picture: a line for each agent and server, and below the names a row for each thing that happens. Only the rows
// that are looked at are drawn.

const Drawing = (() => {
  const SVG = "http://www.w3.org/2000/svg";
  // The height of a row, how wide a letter is, what stands between agents and servers, and beside the outer lines.
  const ROW = 24, LETTER = 6.65, GAP = 250, EDGE = 34, NAMES = 22, LEAST = 16, MOST = 72, PIECE = 30;

  function element(name, attributes = {}, text = null) {
    const made = document.createElementNS(SVG, name);
    for (const [key, value] of Object.entries(attributes)) made.setAttribute(key, value);
    if (text !== null) made.textContent = text;
    return made;
  }

  function cut(text, room) {
    const most = Math.max(1, Math.floor(room / LETTER));
    return text.length > most ? `${text.slice(0, most - 1)}…` : text;
  }

  class Picture {
    constructor(run, names, rows, onPick) {
      Object.assign(this, { run, names, rows, onPick, opened: new Set(), folds: true, here: 0 });
      this.agents = run.events[0].agents.length;
      this.servers = run.events[0].servers.length;
      this.measure();
      this.arrange();
    }

    // The run went on.
    take(run) {
      this.run = run;
      this.arrange();
    }

    // Where the lines stand, for the room that there is.
    measure() {
      const room = Math.max(420, this.rows.parentElement.clientWidth - 14);
      const count = this.agents + this.servers - 2;
      const step = Math.max(LEAST, Math.min(MOST, (room - GAP - 2 * EDGE) / Math.max(1, count)));
      this.agentAt = (number) => EDGE + number * step;
      this.serverAt = (number) => EDGE + (this.agents - 1) * step + GAP + number * step;
      this.width = Math.max(room, this.serverAt(this.servers - 1) + EDGE);
      this.step = step;
      this.nameLines();
    }

    nameLines() {
      const svg = element("svg", { width: this.width, height: NAMES });
      const isWide = this.step >= 52;
      const add = (x, word, number) => {
        const name = isWide ? `${word} ${number}` : `${word[0]}${number}`;
        svg.append(element("text", { x, y: 15, class: "name", "text-anchor": "middle" }, name));
      };
      for (let number = 0; number < this.agents; number += 1) add(this.agentAt(number), "agent", number);
      for (let number = 0; number < this.servers; number += 1) add(this.serverAt(number), "server", number);
      this.names.replaceChildren(svg);
    }

    // Which rows there are, as phases are folded or open.
    arrange() {
      this.shown = this.run.rows.flatMap((row) => {
        if (row.kind !== "group") return [row];
        if (this.folds !== this.opened.has(row.event)) return [row];
        return row.rows.map((own) => ({ ...own, within: row }));
      });
      this.rowOf = new Map();
      this.shown.forEach((row, place) => {
        if (row.kind === "end" && this.rowOf.has(row.event)) return;
        for (const own of row.rows || [row]) this.rowOf.set(own.event, place);
      });
      this.rows.style.height = `${this.shown.length * ROW + 12}px`;
      this.drawnFrom = -1;
    }

    // Opens a folded phase, or closes it.
    turn(row) {
      if (!this.opened.delete(row.event)) this.opened.add(row.event);
      this.arrange();
    }

    foldAll(folds) {
      this.folds = folds;
      this.opened.clear();
      this.arrange();
    }

    // The row of a moment: its own, or the last one before it.
    placeOf(event) {
      for (let at = event; at >= 0; at -= 1) if (this.rowOf.has(at)) return this.rowOf.get(at);
      return 0;
    }

    show(event, follows) {
      this.here = event;
      const view = this.rows.parentElement;
      const top = this.placeOf(event) * ROW;
      const head = this.names.offsetHeight;
      if (follows && (top < view.scrollTop + ROW || top + 3 * ROW > view.scrollTop + view.clientHeight - head)) {
        view.scrollTop = Math.max(0, top - (view.clientHeight - head) / 2);
      }
      this.draw();
    }

    // Draws the rows in view, or so many.
    draw(all = false) {
      const view = this.rows.parentElement;
      const first = all ? 0 : Math.max(0, Math.floor(view.scrollTop / ROW) - 4);
      const inView = Math.ceil(view.clientHeight / ROW) + 10;
      const end = all ? this.shown.length : Math.min(this.shown.length, first + inView);
      const focused = this.rows.contains(document.activeElement) ? document.activeElement.dataset.row : null;
      // on paper a picture breaks only between pieces
      const size = all ? PIECE : end - first;
      const pieces = [];
      for (let from = first; from < end; from += size) pieces.push(this.piece(from, Math.min(end, from + size)));
      if (!all && pieces.length) pieces[0].style.transform = `translateY(${first * ROW}px)`;
      this.rows.replaceChildren(...pieces);
      const again = focused === null ? null : this.rows.querySelector(`[data-row="${focused}"]`);
      if (again) again.focus({ preventScroll: true });
    }

    // The rows from one to another, as a picture.
    piece(first, end) {
      const height = (end - first) * ROW;
      const svg = element("svg", { width: this.width, height: height + (end === this.shown.length ? 12 : 0) });
      for (let number = 0; number < this.agents; number += 1) this.lifeLine(svg, this.agentAt(number), height);
      for (let number = 0; number < this.servers; number += 1) this.lifeLine(svg, this.serverAt(number), height);
      for (let place = first; place < end; place += 1) svg.append(this.row(place, (place - first) * ROW));
      return svg;
    }

    lifeLine(svg, x, height) {
      svg.append(element("path", { d: `M${x} 0V${height}`, class: "life" }));
    }

    row(place, top) {
      const row = this.shown[place];
      const about = { "data-row": place, "data-event": row.event };
      const group = element("g", { class: "row", transform: `translate(0 ${top})`, ...about });
      const isHere = place === this.placeOf(this.here);
      group.append(element("rect", { class: isHere ? "here" : "reach", x: 0, y: 0, width: this.width, height: ROW }));
      this.run.worlds.at(row.event).servers.forEach((server, number) => {
        const box = { class: "down", x: this.serverAt(number) - 5, y: 0, width: 10, height: ROW };
        if (!server.up) group.append(element("rect", box));
      });
      const draw = { said: "said", end: "ended", request: "request", group: "folded" }[row.kind];
      this[draw](group, row);
      if (row.event > this.here) group.classList.add("later");
      group.setAttribute("tabindex", "0");
      group.setAttribute("role", "button");
      group.setAttribute("aria-label", this.wordsOf(row));
      group.addEventListener("click", () => this.onPick(row));
      group.addEventListener("keydown", (event) => {
        if (event.key === "Enter" || event.key === " ") this.onPick(row);
      });
      return group;
    }

    // A row as it is read aloud.
    wordsOf(row) {
      if (row.kind !== "request") return row.text;
      const event = this.run.events[row.event];
      const asked = Model.askedWords(this.run.paths, event);
      return `agent ${event.agent} asks server ${event.server}: ${asked}; ${Model.repliedWords(event.reply)}`;
    }

    text(group, x, y, words, room, kind, isLeft = false) {
      const anchor = isLeft ? "end" : "start";
      const made = element("text", { x, y, class: `halo ${kind}`, "text-anchor": anchor }, cut(words, room));
      if (cut(words, room) !== words) made.append(element("title", {}, words));
      group.append(made);
    }

    said(group, row) {
      const isAgent = row.agent !== undefined;
      const x = isAgent ? this.agentAt(row.agent) : this.serverAt(row.server);
      group.append(element("circle", { cx: x, cy: 13, r: 3.2, class: "tip" }));
      const isLeft = !isAgent && x > this.width / 2;
      const words = isAgent ? row.text : `server ${row.server} ${row.text}`;
      this.text(group, x + (isLeft ? -8 : 8), 17, words, isLeft ? x - 20 : this.width - x - 12, "event", isLeft);
    }

    ended(group, row) {
      const kind = / (answered|swept) /.test(`${row.text} `) ? "good" : / undecided /.test(row.text) ? "open" : "bad";
      const x = this.agentAt(row.agent);
      group.append(element("path", { d: `M${x - 5} 13h10`, class: "ask", "stroke-width": 2 }));
      this.text(group, x + 10, 17, row.text, this.width - x - 16, `event ${kind}`);
    }

    // A request there, and its reply back.
    arrows(group, agent, server, event) {
      const [a, b] = [this.agentAt(agent), this.serverAt(server)];
      const add = (d, kind) => group.append(element("path", { d, class: kind }));
      add(`M${a} 15H${b - 5}`, "ask");
      add(`M${b} 15l-6 -3v6z`, "tip");
      add(`M${b} 20H${a + 5}`, "told");
      add(`M${a} 20l6 -3v6z`, "back");
      if (event.request && ["decide", "resolve"].includes(event.request.asks) && event.reply.says === "verdict") {
        group.append(element("path", { d: `M${b} 9l6 6l-6 6l-6 -6z`, fill: "var(--good)" }));
      }
    }

    request(group, row) {
      const event = this.run.events[row.event];
      const kind = ["busy", "lost", "down", "full"].includes(event.reply.says) ? "bad" : "soft";
      this.arrows(group, event.agent, event.server, event);
      const [a, b] = [this.agentAt(event.agent), this.serverAt(event.server)];
      const replied = Model.repliedWords(event.reply);
      this.text(group, b - 12, 11, replied, b - a - 20, kind, true);
      this.text(group, a + 8, 11, Model.askedWords(this.run.paths, event), b - a - replied.length * LETTER - 34, "");
    }

    // A phase in one row: a mark at each server that was asked.
    folded(group, row) {
      const events = row.rows.map((own) => this.run.events[own.event]);
      const farthest = Math.max(...events.map((event) => this.serverAt(event.server)));
      const a = this.agentAt(row.agent);
      group.append(element("path", { d: `M${a} 15H${farthest - 5}`, class: "ask", "stroke-width": 2 }));
      for (const event of events) {
        const isGood = ["held", "prepared", "done"].includes(event.reply.says);
        const isLast = event === this.run.events[this.here];
        const [x, r] = [this.serverAt(event.server), isLast ? 6 : 4.2];
        const cross = `M${x - r} ${15 - r}l${2 * r} ${2 * r}M${x - r} ${15 + r}l${2 * r} ${-2 * r}`;
        const mark = isGood ? element("circle", { cx: x, cy: 15, r, class: "tip" }) : element("path", { d: cross, class: "cross" });
        mark.append(element("title", {}, `server ${event.server}: ${Model.repliedWords(event.reply)}`));
        group.append(mark);
      }
      this.text(group, a + 8, 11, `▸ ${row.text}`, GAP - 10, row.good === events.length ? "" : "open");
    }
  }

  return { Picture };
})();
