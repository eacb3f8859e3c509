// node_client.js URL [SUBPROTOCOL..]: a client of Node's `ws`. Commands are JSON objects, one a line of standard input:
// {"send": TEXT}, {"binary": TEXT}, {"fragments": [TEXT, ..]}, {"ping": TEXT}, {"close": CODE}. What comes is printed so,
// too: {"open": SUBPROTOCOL}, {"text": TEXT}, {"binary": N}, {"ping": TEXT}, {"pong": TEXT}, {"closed": CODE}, {"failed": WHY}.
'use strict';
const readline = require('readline');
const WebSocket = require('ws');

const [url, ...subprotocols] = process.argv.slice(2);
const socket = new WebSocket(url, subprotocols);

function tell(event) {
  process.stdout.write(`${JSON.stringify(event)}\n`);
}

function sendFragments(parts) {
  parts.forEach((part, place) => socket.send(part, { fin: place === parts.length - 1 }));
}

function obey(command) {
  if ('send' in command) socket.send(command.send);
  if ('binary' in command) socket.send(Buffer.from(command.binary));
  if ('fragments' in command) sendFragments(command.fragments);
  if ('ping' in command) socket.ping(command.ping);
  if ('close' in command) socket.close(command.close);
}

process.stdout.on('error', () => process.exit(1)); // nobody reads any more
socket.on('open', () => {
  tell({ open: socket.protocol });
  readline.createInterface({ input: process.stdin }).on('line', (line) => obey(JSON.parse(line)));
});
socket.on('message', (data, isBinary) => tell(isBinary ? { binary: data.length } : { text: data.toString() }));
socket.on('ping', (payload) => tell({ ping: payload.toString() }));
socket.on('pong', (payload) => tell({ pong: payload.toString() }));
socket.on('error', (fault) => tell({ failed: fault.message }));
socket.on('close', (code) => {
  tell({ closed: code });
  process.stdin.destroy();
});
