"use strict";
// A page of a session: what is clicked goes there as a line, and the run goes on by what comes of it.

const Live = (() => {
  const { given, make, explained } = Page;
  const { live } = given;
  const find = (name) => document.getElementById(name);
  const bar = find("more");
  const told = make("output", { id: "told", "aria-live": "polite" });
  const WAITS = "button, input, select";
  let { epoch } = live;
  let isAsked = false;
  let isOver = false;

  const button = (text, act, how = {}) => make("button", { type: "button", ...how, onclick: act }, text);

  // ---- talking

  function say(lines, kind = "") {
    told.className = kind;
    told.replaceChildren(...lines.map((text) => make("div", {}, ...explained(text))));
  }

  // Nothing more can be asked: the session has ended, or whoever serves this page.
  function end(why) {
    isOver = true;
    document.body.classList.add("over");
    say([why], "bad");
    Page.adds(addTo);
    for (const one of bar.querySelectorAll(WAITS)) one.disabled = true;
  }

  async function answerTo(line) {
    const body = JSON.stringify({ line, epoch, have: Page.run.events.length });
    const how = { method: "POST", headers: { "Content-Type": "application/json" }, body, credentials: "omit", redirect: "error" };
    const reply = await fetch("line", how);
    if (!reply.ok) throw new Error(await reply.text());
    return reply.json();
  }

  function take(answer) {
    epoch = answer.epoch;
    Page.goOn(answer.kept, answer.events, answer.script, answer.whys);
    nameWhoCalls();
    if (answer.ended) end(answer.ended);
    else if (answer.wrong) say([...answer.told, answer.wrong], "bad");
    else say(answer.told);
  }

  // Gives the session lines, one after the other, as long as none of them is faulty; answers whether all were taken.
  async function tell(...lines) {
    if (isAsked || isOver) return false;
    isAsked = true;
    document.body.classList.add("asks");
    try {
      for (const line of lines) {
        const answer = await answerTo(line);
        take(answer);
        if (answer.wrong || answer.ended) return false;
      }
      return true;
    } catch (error) {
      end(error instanceof TypeError ? "Nobody answers: the program has ended." : error.message);
      return false;
    } finally {
      isAsked = false;
      document.body.classList.remove("asks");
    }
  }

  // ---- what stands on the cards

  function ofServer(server, number) {
    const turn = server.up ? "crash" : "return";
    return [button(turn, () => tell(`${turn} ${number}`)), button("audit", () => tell(`audit ${number}`))];
  }

  function ofAgent(agent, number) {
    if (agent.job) return [button("step", () => tell(`step ${number} 1`)), button("run", () => tell(`run ${number}`))];
    const sweeps = Page.run.events[0].servers.map((_, server) =>
      button(`sweep s${server}`, () => tell(`sweep ${number} ${server}`)));
    return [button("new job", () => openJob(number)), ...sweeps];
  }

  // Buttons, where the last moment is looked at; else the way there.
  function addTo(world, state, isLast) {
    bar.classList.toggle("past", !isLast);
    if (!isLast || isOver) return;
    const add = (card, buttons) => card.append(make("div", { class: "acts" }, ...buttons));
    for (const card of world.querySelectorAll("[data-server]")) {
      const number = Number(card.dataset.server);
      add(card, ofServer(state.servers[number], number));
    }
    for (const card of world.querySelectorAll("[data-agent]")) {
      const number = Number(card.dataset.agent);
      add(card, ofAgent(state.agents[number], number));
    }
  }

  // ---- a new job

  const dialog = make("dialog", { id: "job", "aria-label": "a new job" });
  const field = (name, label, value, how = {}) => make("label", {}, `${label} `, make("input", { name, value, required: "", ...how }));
  const [users, operations] = ["users", "operations"].map((id) => make("datalist", { id }));
  const form = make("form", {},
    field("user", "user", live.user, { list: "users", size: 12, title: "a number, or a name that the script gives" }),
    field("groups", "groups", live.groups, { size: 12, title: "numbers, with commas between them" }),
    field("site", "site", "0", { size: 3, title: "0 to 15" }),
    field("asks", "operations", "", { list: "operations", size: 60, placeholder: "file /plan 640 ; write /plan 6869" }),
    make("div", { class: "acts" }, make("button", { type: "submit", value: "begin" }, "begin"),
      make("button", { type: "submit", value: "run" }, "begin, and run to its end"), button("close", () => dialog.close())));
  dialog.append(make("h2", {}), form, users, operations);
  let asked = 0;

  function openJob(number) {
    asked = number;
    dialog.querySelector("h2").textContent = `a new job of agent ${number}`;
    operations.replaceChildren(...live.operations.map((text) => make("option", { value: text })));
    dialog.showModal();
  }

  // Users by the names that the script gives them.
  function nameWhoCalls() {
    users.replaceChildren(...[...Page.run.names.values()].map((name) => make("option", { value: name })));
  }

  function numberOf(user) {
    const found = [...Page.run.names].find(([, name]) => name === user);
    return found ? found[0] : user;
  }

  form.addEventListener("submit", async (event) => {
    event.preventDefault();
    const read = (name) => form.elements[name].value.trim().replace(/\s+/g, " ");
    const line = `begin ${asked} ${numberOf(read("user"))} ${read("groups").replace(/ /g, "")} ${read("site")} ${read("asks")}`;
    const more = event.submitter && event.submitter.value === "run" ? [`run ${asked}`] : [];
    dialog.close();
    if (!await tell(line, ...more) && !isOver) dialog.showModal();
  });

  // ---- the bar

  function begin() {
    const line = make("input", { id: "line", size: 44, placeholder: "a line of the session", "aria-label": "a line of the session" });
    const typed = make("form", { id: "typed" }, line, make("button", { type: "submit" }, "tell"));
    typed.addEventListener("submit", async (event) => {
      event.preventDefault();
      if (await tell(line.value)) line.value = "";
    });
    const now = button("to now", () => Page.go(Page.run.last), { id: "now", title: "what comes next is clicked where the run stands" });
    const save = make("a", { id: "save", href: "script", download: "run.script" }, "save the script");
    bar.append(make("b", {}, "live"), now, typed, save, told);
    document.body.append(dialog);
    nameWhoCalls();
    Page.go(Page.run.last);
    Page.adds(addTo);
    if (live.ended) end(live.ended);
  }

  begin();
  return { tell, isAsked: () => isAsked };
})();
