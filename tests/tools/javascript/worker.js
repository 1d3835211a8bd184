'use strict';
// A time limit that waits for the handler of what a worker thread sends: the main thread makes a text of many rows.
const { Worker, isMainThread, parentPort } = require('worker_threads');

if (!isMainThread) {
  parentPort.postMessage(Array.from({ length: 60000 }, (_, at) => ({ at, root: Math.sqrt(at) })));
} else {
  const { took, started } = require('./said.js');
  let timeout;

  function show(rows) {
    const done = took('show');
    const text = rows.map((row) => `${row.at};${row.root.toFixed(3)}`).join('\n');
    done();
    return text;
  }

  function limit() {
    timeout.called();
  }

  new Worker(__filename).on('message', (rows) => {
    timeout = started('limit', 5, (delay) => setTimeout(limit, delay));
    show(rows);
  });
}
