'use strict';
// A server that renders a long page, and a timer meanwhile.
const http = require('http');
const { took, started } = require('./said.js');

function render(count) {
  const done = took('render');
  let page = '';
  for (let at = 0; at < count; at++) {
    page += `<li>${Math.sqrt(at).toFixed(6)}</li>`;
  }
  done();
  return page;
}

function handle(request, response) {
  const done = took('handle');
  response.end(request.url === '/slow' ? render(300000) : 'ok');
  done();
}

const server = http.createServer(handle).listen(0, '127.0.0.1', () => {
  const ask = (path, then) => http.get({ port: server.address().port, host: '127.0.0.1', path }, (response) => response.resume().on('end', then));
  ask('/', () => {
    const beats = started('timeout', 10, (delay) => setInterval(function timeout() { beats.called(); }, delay));
    ask('/slow', () => {
      server.close();
      server.closeAllConnections();
      clearInterval(beats.timer);
    });
  });
});
