'use strict';
// A request asks for a user, whose row comes from a file, by promises; and then for a greeting in 20 ms. Who asked for that?
const fs = require('fs/promises');
const http = require('http');
const { took } = require('./said.js');

function works(name, ms) {
  const done = took(name);
  for (const end = Date.now() + ms; Date.now() < end; );
  done();
}

const query = async (file) => JSON.parse(await fs.readFile(file, 'utf8')); async function findUser(name) { return query(`${name}.json`); }

function greet(response) {
  setTimeout(function hello() { response.end('hello'); }, 20);
}

async function createUser(response) {
  await findUser(__dirname + '/chain').catch(() => {});
  greet(response);
  setImmediate(() => works('crowd', 60));
}

const server = http.createServer(function route(request, response) {
  works('route', 10);
  createUser(response);
});
server.listen(0, '127.0.0.1', () => {
  http.get({ port: server.address().port, host: '127.0.0.1' }, (response) => { response.resume(); response.on('end', () => server.close()); });
});
