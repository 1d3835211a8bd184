'use strict';
// A heartbeat that waits while another process is waited for.
const { execSync } = require('child_process');
const { took, started } = require('./said.js');

function deploy() {
  const done = took('deploy');
  execSync('sleep 0.15');
  done();
}

function heartbeat() {
  beat.called();
}

setTimeout(deploy, 20);
const beat = started('heartbeat', 40, (delay) => setTimeout(heartbeat, delay));
