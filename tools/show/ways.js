"use strict";
// A page of all ways in which jobs may end: a tree of how they end, answers to questions, and the run of each way.

const Ways = (() => {
  const { given, make, explained } = Page;
  const { ways, answers, last, jobs } = given.ways;
  const place = document.getElementById("more");
  const first = given.events;
  const parts = new Map();
  let asked = null;
  let here = null;

  const JOB = /^(\d+\.\d+) (.*)$/;
  const kindOf = (text) => (/ (answered|swept)\b/.test(text) ? "good" : / (undecided|-)/.test(text) ? "open" : "bad");

  // ---- the tree

  // Ways that have their first lines in common, so many: those that go on alike are one branch, up to where they differ.
  function branch(some, at) {
    const shared = [];
    let next = at;
    while (next < some[0].lines.length && some.every((way) => way.lines[next] === some[0].lines[next])) {
      shared.push(some[0].lines[next]);
      next += 1;
    }
    if (some.length === 1) return { shared, way: some[0], below: [] };
    const groups = new Map();
    for (const way of some) groups.set(way.lines[next], [...(groups.get(way.lines[next]) || []), way]);
    // those that have no more lines are alike in all that is told
    const below = groups.size > 1 ? [...groups.values()].map((own) => branch(own, next)) : some.map((way) => ({ shared: [], way, below: [] }));
    return { shared, way: null, below };
  }

  // How many ways there are on a branch.
  const numbersOf = (node) => (node.way ? [node.way.number] : node.below.flatMap(numbersOf));

  function linePart(text) {
    const job = JOB.exec(text);
    if (!job) return make("div", { class: "ending" }, text);
    return make("div", { class: "ending", title: jobs[job[1]] || null }, `${job[1]} `, make("span", { class: kindOf(text) }, ...explained(job[2])));
  }

  function wayPart(way) {
    const decided = way.decided && way.decided.length ? `, decided ${way.decided.join(", then ")}` : "";
    const about = { class: "way", "data-way": way.number };
    const told = `${way.about}${decided}`;
    const open = way.command
      ? [make("code", {}, way.command)]
      : [make("button", { type: "button", onclick: () => showWay(way) }, `way ${way.number}`)];
    const part = make("div", about, ...open, make("span", { class: "small" }, ` ${told}`));
    parts.set(way.number, part);
    return part;
  }

  function nodePart(node) {
    const below = node.below.map((one) => make("li", {}, ...nodePart(one)));
    const count = node.way || !node.shared.length ? [] : [make("span", { class: "small" }, `${numbersOf(node).length} ways`)];
    return [...node.shared.map(linePart), ...(node.way ? [wayPart(node.way)] : []), ...count,
      ...(below.length ? [make("ul", {}, ...below)] : [])];
  }

  // ---- what is looked at

  // Shows the run that leads to a way, from its beginning.
  function showWay(way) {
    Page.goOn(0, [...first.slice(0, way.shared), ...way.events], way.script, way.whys);
    here = way.number;
    mark();
    // what all ways have in common is past
    Page.go(Math.max(0, way.shared - 1));
  }

  function mark() {
    for (const [number, part] of parts) {
      part.classList.toggle("here", number === here);
      part.classList.toggle("asked", asked !== null && asked.ways.includes(number));
    }
  }

  function answerPart(answer) {
    const turn = () => {
      asked = asked === answer ? null : answer;
      mark();
    };
    return make("li", { class: `answer ${answer.kind}` }, make("button", { type: "button", title: "marks the ways in which it is so", onclick: turn }, answer.text));
  }

  function begin() {
    const tree = make("ul", { id: "ways", "aria-label": "how the jobs may end" }, make("li", {}, ...nodePart(branch(ways, 0))));
    const asks = answers.length ? [make("ul", { id: "answers" }, ...answers.map(answerPart))] : [];
    const own = Object.entries(jobs).filter(([name]) => ways.some((way) => way.lines.some((line) => line.startsWith(`${name} `))));
    const list = make("div", { class: "small" }, ...own.map(([name, text]) => make("div", {}, `${name} is ${text}`)));
    const all = make("details", { open: "" }, make("summary", {}, make("b", {}, last)), ...asks, list, tree);
    place.append(all);
    showWay(ways[0]);
  }

  begin();
  return { here: () => here, tree: () => branch(ways, 0) };
})();
