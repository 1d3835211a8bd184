'use strict';
// Forty timers, each of which says how late it was called and how long it took. When it was started lies between two looks at the clock.
const rows = [];
const ms = () => Number(process.hrtime.bigint()) / 1e6;

function busy(time) {
  const end = ms() + time;
  while (ms() < end);
}

for (let at = 0; at < 40; at++) {
  const time = (at * 7) % 23, delay = 5 + ((at * 13) % 97), before = ms();
  let behind = 0;
  setTimeout(function timer() {
    const begin = ms();
    busy(time);
    rows.push([at, begin - behind - delay, begin - before - delay, ms() - begin]);
  }, delay);
  behind = ms();
}
process.on('exit', () => rows.forEach((it) => console.log(it.map((value) => value.toFixed(1)).join(' '))));
