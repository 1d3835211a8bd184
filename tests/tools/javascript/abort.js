'use strict';
// A time limit, AbortSignal.timeout, that is due while a text is parsed: it isn't the server that is slow.
const { took, started } = require('./said.js');
const text = JSON.stringify(Array.from({ length: 100000 }, (_, id) => ({ id, price: id % 97 })));

function parse() {
  const done = took('parse');
  JSON.parse(text);
  done();
}

function ask() {
  const limit = started('limit', 5, (delay) => AbortSignal.timeout(delay));
  limit.timer.addEventListener('abort', () => limit.called() ?? clearTimeout(alive));
  parse();
}

setTimeout(ask, 20);
const alive = setTimeout(() => {}, 60000);
