'use strict';
// A heartbeat that waits for a function that makes much garbage. How long of that the collector took node itself tells.
const { PerformanceObserver, performance } = require('perf_hooks');
const { took, started } = require('./said.js');
const kept = [], collected = [];
let begun = 0, ended = 0;
new PerformanceObserver((list) => collected.push(...list.getEntries())).observe({ entryTypes: ['gc'] });

function grow() {
  const done = took('grow');
  begun = performance.now();
  for (let at = 0; at < 100000; at++) kept.push({ at, words: [at, at + 1, at + 2], text: `row ${at}` });
  ended = performance.now();
  done();
}

function heartbeat() {
  beat.called();
}

function tell() {
  const mine = collected.filter((it) => it.startTime >= begun && it.startTime < ended);
  console.log(`took collector ${mine.reduce((sum, it) => sum + it.duration, 0).toFixed(1)}`);
}

setTimeout(grow, 20);
const beat = started('heartbeat', 30, (delay) => setTimeout(heartbeat, delay));
setTimeout(tell, 100);
