// An HTTP server and its client over loopback, in one program: node http.js [REQUESTS [AT A TIME]]
'use strict'
const http = require('http')

const wanted = Number(process.argv[2] || 2000)
const many = Number(process.argv[3] || 20)
let begun = 0
let answered = 0

const server = http.createServer((request, response) => response.end('hello\n'))
const agent = new http.Agent({ keepAlive: true, maxSockets: many })

function fail (fault) {
  console.error(String(fault))
  process.exit(2)
}

function ask () {
  if (begun === wanted) return
  begun++
  const options = { host: '127.0.0.1', port: server.address().port, agent }
  http.get(options, (response) => response.resume().on('end', answer)).on('error', fail)
}

function answer () {
  answered++
  if (answered < wanted) return ask()
  agent.destroy()
  server.close()
}

setTimeout(fail, 60000, 'it takes too long').unref()
server.listen(0, '127.0.0.1', () => { for (let at = 0; at < many; at++) ask() })
process.on('exit', () => console.log(`${answered} answers`))
