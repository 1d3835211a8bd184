// A server in node for attaches.py, started without the recorder: a heartbeat each 100 ms, and a timer each 20 ms, that takes 300 ms in rebuildIndex
// behind each SIGUSR2.
let stalls = false;

function rebuildIndex() {
  Atomics.wait(new Int32Array(new SharedArrayBuffer(4)), 0, 0, 300);
}

function heartbeat() {}

function serve() {
  if (stalls) rebuildIndex();
  stalls = false;
}

process.on('SIGUSR2', () => (stalls = true));
setInterval(heartbeat, 100);
setInterval(serve, 20);
console.log('ready');
