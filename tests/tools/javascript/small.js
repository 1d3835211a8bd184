'use strict';
// A timer that waits for eighty others, each of which takes a millisecond or two.
const { took, started } = require('./said.js');
const done = [];

function step() {
  if (!done.length) done.push(took('all'));
  let sum = 0;
  for (let at = 0; at < 300000; at++) sum += Math.sqrt(at);
  return sum;
}

function save() {
  saved.called();
  done[0]();
}

for (let at = 0; at < 80; at++) setTimeout(step, 20);
const saved = started('save', 21, (delay) => setTimeout(save, delay));
