// page_cases.mjs PAGE CASES: runs the cases of a file, which tools/tests/test_page writes, by the page's own module and by what its worker runs, and
// prints a line for each that is answered otherwise; the last line says how many were tried.
import {readFileSync} from 'node:fs';
import {gunzipSync} from 'node:zlib';

const [, , pagePath, casesPath] = process.argv;
const page = readFileSync(pagePath, 'utf8');
const part = id => page.match(new RegExp(`<script id="${id}"[^>]*>([^]*?)</script>`))[1];

const module = new WebAssembly.Module(gunzipSync(Buffer.from(part('module'), 'base64')));
const run = new Function(part('worker') + '; return run;')();
const packed = bytes => Buffer.from(bytes).toString('base64');
const packedAll = texts => JSON.stringify(Object.entries(texts).map(([name, bytes]) => [name, packed(bytes)]).sort());

let tried = 0;
for (const {name, words, texts, status, out, err, made} of JSON.parse(readFileSync(casesPath, 'utf8'))) {
  const given = Object.fromEntries(Object.entries(texts).map(([text, content]) => [text, new Uint8Array(Buffer.from(content, 'base64'))]));
  tried += 1;
  try {
    const got = run(module, words, given);
    const isSame = got.status === status && packed(got.out) === out && packed(got.err) === err
      && packedAll(got.made) === JSON.stringify(Object.entries(made).sort());
    const begin = JSON.stringify(Buffer.from(got.out).toString().slice(0, 80));
    if (!isSame) console.log(`${name}: ${words.join(' ')}: status ${got.status} for ${status}, ${begin}`);
  } catch (error) {
    console.log(`${name}: ${words.join(' ')}: ${error}`);
  }
}
console.log(`tried ${tried}`);
