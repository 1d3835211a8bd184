'use strict';
// Slow immediates, one behind the other, and a timer meanwhile.
const { took, started } = require('./said.js');
let rounds = 6;

function flush() {
  const done = took('flush');
  let sum = 0;
  for (let at = 0; at < 1e7; at++) sum += at % 7;
  if (--rounds > 0) setImmediate(flush);
  done();
  return sum;
}

function save() {
  saved.called();
}

const saved = started('save', 15, (delay) => setTimeout(save, delay));
setImmediate(flush);
