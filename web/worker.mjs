// The page's worker: it gets the compiled module once, and then runs of words on texts, and packet captures, each with a number that its answer has
// too. Meanwhile it tells ten times a second how many bytes were read.
import {wireIn} from './packets.mjs';
import {run} from './run.mjs';

const PAUSE = 100;
let module;

onmessage = ({data: {number, words, texts, again, packets, asked, ...given}}) => {
  if (given.module) {
    module = given.module;
    return;
  }
  let read = 0, last = performance.now();
  const wasRead = count => {
    read += count;
    tell();
  };
  const tell = () => {
    if (performance.now() - last < PAUSE) return;
    last = performance.now();
    postMessage({number, read});
  };
  try {
    postMessage({number, ...(packets ? wireIn(packets, asked, upTo => { read = upTo, tell(); }) : run(module, words, texts, {again, wasRead}))});
  } catch (error) {
    postMessage({number, broken: String(error.message || error)});
  }
};
