// An HTTP server with 20 keep-alive clients of its own, and a heartbeat, for tests/recorder/flight:
// server.js SECONDS [STALL_MS STALL_AT_MS [PAUSE_MS [HOW]]]. HOW it stalls: it `waits`, `computes` for as long on the processor, or `calls` the system.
const http = require('http');
const { execSync } = require('child_process');
const [seconds, stall, stallAt, pause] = process.argv.slice(2).map(Number);
const how = process.argv[6] ?? 'waits';
const begun = Date.now();
let stalled = false;

function used(since) {
  const { user, system } = process.cpuUsage(since);
  return (user + system) / 1000;
}

function rebuildIndex() {
  const since = process.cpuUsage();
  const index = new Map();
  if (how === 'computes') while (used(since) < stall) for (let at = 0; at < 10000; at++) index.set((at * 7919) % 4099, at);
  else if (how === 'calls') execSync(`sleep ${stall / 1000}`);
  else Atomics.wait(new Int32Array(new SharedArrayBuffer(4)), 0, 0, stall);
}

const server = http.createServer((request, response) => {
  if (stall && !stalled && Date.now() >= begun + stallAt) {
    stalled = true;
    rebuildIndex();
  }
  response.end('answer');
});

function heartbeat() {}

setInterval(heartbeat, 100);
setTimeout(() => process.exit(0), seconds * 1000);

server.listen(0, '127.0.0.1', () => {
  const agent = new http.Agent({ keepAlive: true, maxSockets: 20 });
  const ask = () => http.get({ port: server.address().port, agent }, (answer) => answer.resume().on('end', askAgain)).on('error', askAgain);
  const askAgain = () => (pause ? setTimeout(ask, pause) : ask());
  for (let at = 0; at < 20; at++) ask();
});
