'use strict';
// A server whose login hashes at once, and a heartbeat.
const http = require('http');
const { pbkdf2Sync } = require('crypto');
const { took, started } = require('./said.js');

function check(password) {
  const done = took('check');
  const found = pbkdf2Sync(password, 'salt', 60000, 64, 'sha512');
  done();
  return found;
}

function login(request, response) {
  const done = took('login');
  response.end(check('secret').toString('hex'));
  done();
}

function heartbeat() {
  beats.called();
}

const beats = started('heartbeat', 20, (delay) => setInterval(heartbeat, delay));
const server = http.createServer(login).listen(0, '127.0.0.1', () => {
  setTimeout(() => {
    http.get({ port: server.address().port, host: '127.0.0.1' }, (response) => {
      response.resume();
      response.on('end', () => {
        server.close();
        server.closeAllConnections();
        clearInterval(beats.timer);
      });
    });
  }, 50);
});
