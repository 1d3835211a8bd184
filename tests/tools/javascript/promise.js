'use strict';
// Two thousand awaits that never leave the microtasks.
const { took, started } = require('./said.js');

async function migrate(rows) {
  const done = took('migrate');
  let sum = 0;
  for (const row of rows) {
    sum += await convert(row);
  }
  done();
  return sum;
}

async function convert(row) {
  let found = 0;
  for (let at = 0; at < 20000; at++) found = (found * 31 + row + at) % 65537;
  return found;
}

function beat() {
  beats.called();
}

const beats = started('beat', 20, (delay) => setTimeout(beat, delay));
setTimeout(function start() {
  Promise.resolve(Array.from({ length: 2000 }, (_, at) => at)).then(migrate);
}, 10);
