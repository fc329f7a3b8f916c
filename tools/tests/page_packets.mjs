// page_packets.mjs FILE [--port N].. [--past-loss] [A B]: writes what the page's modules make of a packet capture, as tools/wire_pcap does:
// tools/tests/test_pcap compares them.
import {readFileSync, writeSync} from 'node:fs';
import {wireIn} from '../../web/packets.mjs';

const [, , path, ...words] = process.argv, ports = [], nodes = [];
let goesOn = false;
while (words.length) {
  const word = words.shift();
  if (word === '--port') ports.push(Number(words.shift()));
  else if (word === '--past-loss') goesOn = true;
  else nodes.push(word);
}
const {text = '', said, isWhole, fault, lines} = wireIn(readFileSync(path), {ports, goesOn, nodes: nodes.length ? nodes : undefined});
for (const each of said) console.error(`wire_pcap: ${each}`);
if (fault) console.error(`wire_pcap: ${fault}`);
for (const {port, told} of lines || []) console.error(`  --port ${port}: ${told}`);
for (let at = 0; at < text.length;) at += writeSync(1, text, at);
process.exitCode = fault ? 2 : isWhole ? 0 : 1;
