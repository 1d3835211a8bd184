'use strict';
// Two hundred thousand ticks, each of which asks for the next.
const { took, started } = require('./said.js');
let left = 200000, done;

function drain() {
  done ??= took('drain');
  if (left-- > 0) process.nextTick(drain);
  else done();
}

function save() {
  saved.called();
}

const saved = started('save', 5, (delay) => setTimeout(save, delay));
setTimeout(() => process.nextTick(drain), 2);
