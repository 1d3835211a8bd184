'use strict';
// A heartbeat, and a text of JSON that is read whole.
const { took, started } = require('./said.js');
const text = JSON.stringify(Array.from({ length: 300000 }, (_, at) => ({ id: at, name: `user ${at}` })));

function load() {
  const done = took('load');
  const users = JSON.parse(text);
  done();
  return users.length;
}

function beat() {
  beats.called();
}

const beats = started('beat', 10, (delay) => setInterval(beat, delay));
setTimeout(load, 33);
setTimeout(() => clearInterval(beats.timer), 400);
