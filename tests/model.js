// Holds the model of the pages of `./suites show` against what the program tells: prints what is another, by `node` (the
// model is the word behind, and what is told the input).
const Model = require(process.argv[2]);

// What of the world behind the last event is another than the program tells at the end.
function ended(told) {
  const run = Model.read(told.events, told.before);
  const last = run.events[run.last], world = run.worlds.at(run.last);
  const wrong = [];
  last.servers.forEach((server, number) => {
    const own = world.servers[number];
    const copies = Object.values(own.copies).sort((a, b) => a.suite - b.suite);
    if (own.up !== server.up) wrong.push(`server ${number} up`);
    if (JSON.stringify(own.locks) !== JSON.stringify(server.locks)) wrong.push(`locks of ${number}`);
    if (JSON.stringify(copies) !== JSON.stringify(server.copies)) wrong.push(`copies of ${number}`);
    if (JSON.stringify(own.denials) !== JSON.stringify(server.denials)) wrong.push(`denials of ${number}`);
  });
  last.agents.forEach((agent, number) => {
    const own = world.agents[number];
    for (const part of ['jobs', 'stage', 'next', 'of', 'gathered', 'cache']) {
      if (JSON.stringify(own[part]) !== JSON.stringify(agent[part])) wrong.push(`${part} of ${number}`);
    }
    if ((own.job !== null) !== (agent.stage !== 'idle')) wrong.push(`job of ${number}`);
  });
  return wrong;
}

// The moments at which the world of a part of a run, to its end, is not that of the whole run.
function parted(told) {
  const whole = Model.read(told.whole), part = Model.read(told.part, told.before);
  const sorted = (key, value) => (value && typeof value === 'object' && !Array.isArray(value)
    ? Object.fromEntries(Object.entries(value).sort()) : value);
  const same = (one, other) => JSON.stringify(one, sorted) === JSON.stringify(other, sorted);
  const wrong = [];
  for (let at = 0; at <= part.last; at += 1) {
    if (!same(part.worlds.at(at), whole.worlds.at(at + whole.last - part.last))) wrong.push(at);
  }
  return wrong;
}

const told = JSON.parse(require('fs').readFileSync(0, 'utf8'));
console.log(JSON.stringify('whole' in told ? parted(told) : ended(told)));
