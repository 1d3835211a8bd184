'use strict';
// An interval that falls behind, since another one takes long.
const { took, started } = require('./said.js');
let count = 0;

function sample() {
  samples.called();
  if (++count === 20) {
    clearInterval(samples.timer);
    clearInterval(others);
  }
}

function compact() {
  const done = took('compact');
  const rows = Array.from({ length: 200000 }, (_, at) => (at * 7919) % 200003);
  rows.sort((a, b) => a - b);
  done();
}

const samples = started('sample', 20, (delay) => setInterval(sample, delay));
const others = setInterval(compact, 70);
