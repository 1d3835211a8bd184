'use strict';
// A heartbeat that waits while an emitter tells all of its listeners, which were added and never taken away.
const { EventEmitter } = require('events');
const { took, started } = require('./said.js');
const prices = new EventEmitter().setMaxListeners(0);
const seen = new Map();

function onPrice(price) {
  for (let at = 0; at < 40; at++) seen.set(`${price.name} ${at}`, price.value + at);
}

function publish() {
  const done = took('publish');
  prices.emit('price', { name: 'wheat', value: 12 });
  done();
}

function heartbeat() {
  beat.called();
}

for (let at = 0; at < 10000; at++) prices.on('price', onPrice);
setTimeout(publish, 20);
const beat = started('heartbeat', 30, (delay) => setTimeout(heartbeat, delay));
