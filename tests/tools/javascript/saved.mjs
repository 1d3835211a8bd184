// A module: what is awaited is a file, but the text for it is made at once, before anything is asked for.
import { writeFile } from 'node:fs/promises';
import { createRequire } from 'node:module';
import { setTimeout as sleep } from 'node:timers/promises';
const { took, started } = createRequire(import.meta.url)('./said.js');

function serialize(rows) {
  const done = took('serialize');
  let text = '';
  for (let at = 0; at < rows; at++) text += JSON.stringify({ at, name: `row ${at}` });
  done();
  return text;
}

async function save() {
  const text = serialize(100000);
  await writeFile('/dev/null', text);
}

function heartbeat() {
  beat.called();
}

await sleep(20);
const beat = started('heartbeat', 5, (delay) => setTimeout(heartbeat, delay));
await save();
