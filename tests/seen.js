// What a page of `./suites show` shows: of each server whether it is up, its copies and its locks; of each agent how far
// its job is, what it gathered, and what its cache keeps; and the lines of `play` up to here.
(() => ({
  servers: [...document.querySelectorAll('[data-server]')].map((card) => ({
    up: card.dataset.up === 'true',
    copies: [...card.querySelectorAll('[data-copy]')].map((one) =>
      [one.dataset.copy, one.dataset.prefix, one.dataset.content].map(Number)),
    locks: [...card.querySelectorAll('[data-lock]')].map((one) => one.dataset.lock) })),
  agents: [...document.querySelectorAll('[data-agent]')].sort((one, other) =>
    one.dataset.agent - other.dataset.agent).map((card) => ({
    stage: card.dataset.stage,
    gathered: [...card.querySelectorAll('[data-gathered]')].map((one) => one.dataset.gathered),
    cache: [...card.querySelectorAll('[data-entry]')].map((one) => one.dataset.entry) })),
  told: [...document.querySelectorAll('#script .told:not(.later)')].map((one) => one.dataset.told),
  text: [...document.querySelectorAll('#script .told:not(.later)')].map((one) => one.textContent),
  here: Page.at(), last: Page.run.last }))()
