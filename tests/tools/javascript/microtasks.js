'use strict';
// A timer that waits for a chain of promises: each await goes on at once, and node comes to no timer between them.
const { took, started } = require('./said.js');
const queue = Array.from({ length: 300000 }, (_, id) => id);

async function take() {
  return queue.pop();
}

async function drain() {
  const done = took('drain');
  let sum = 0;
  while (queue.length) sum += await take();
  done();
  return sum;
}

function deadline() {
  limit.called();
}

setTimeout(() => drain(), 20);
const limit = started('deadline', 30, (delay) => setTimeout(deadline, delay));
