'use strict';
// What a program of this folder says of itself, by its own clock, as it ends: how long something took (`took NAME MS`), and how late the call of
// a timer was (`late NAME CALL MS`), each between the least and the most that it may have been.
const rows = [];
const now = () => Number(process.hrtime.bigint()) / 1e6;

exports.took = (name) => {
  const begin = now();
  return () => rows.push(`took ${name} ${(now() - begin).toFixed(1)}`);
};

// Started by this function; `called` is told of each call. node counts an interval from its last call.
exports.started = (name, delay, start) => {
  let least = now(), call = 0;
  const timer = start(delay);
  let most = now();
  return {
    timer,
    called: () => {
      const time = now();
      rows.push(`late ${name} ${++call} ${(time - most - delay).toFixed(1)} ${(time - least - delay).toFixed(1)}`);
      least = most = time;
    },
  };
};

process.on('exit', () => console.log(rows.join('\n')));
