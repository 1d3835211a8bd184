'use strict';
// A heartbeat that waits for a crowd: twelve requests come at once, and each is answered in some milliseconds.
const http = require('http');
const { took, started } = require('./said.js');
const CLIENTS = 12;
let beat, done, open = CLIENTS;

function reckon(url) {
  let sum = 0;
  for (let at = 0; at < 400000; at++) sum += Math.sqrt(at + url.length);
  return sum;
}

function handle(request, response) {
  beat ??= started('heartbeat', 5, (delay) => setTimeout(heartbeat, delay));
  done ??= took('crowd');
  response.end(`${reckon(request.url)}`);
}

function heartbeat() {
  beat.called();
  done();
}

const server = http.createServer(handle).listen(0, '127.0.0.1', () => {
  const { port } = server.address();
  for (let at = 0; at < CLIENTS; at++) {
    http.get({ host: '127.0.0.1', port, agent: false }, (response) => response.resume().on('end', () => --open || server.close()));
  }
});
