// Runs the compiled program on texts that are given as bytes: run(module, words, texts) answers {status, out, err, made}. `module` is the compiled
// WebAssembly module, `texts` has bytes by the names that the words have, and `made` likewise what the program wrote. Each run has an instance of
// its own, so that nothing is left of one for the next. Throws where there is no memory for the texts. `wasRead` is called with how many bytes each
// read gave; `again` is how often each text can be begun again, after which it is as one that came through a pipe.
export function run(module, words, texts, {again, wasRead = () => {}} = {}) {
  const it = new WebAssembly.Instance(module, {page: {was_read: count => wasRead(count >>> 0)}}).exports;
  if (again) it.begin_again_at_most(again);
  const put = bytes => {
    const at = it.room(bytes.length) >>> 0;
    if (at === 0) throw new RangeError('out of memory');
    new Uint8Array(it.memory.buffer).set(bytes, at);
    return at;
  };
  const take = (at, length) => new Uint8Array(it.memory.buffer).slice(at >>> 0, (at >>> 0) + (length >>> 0));
  const encode = text => new TextEncoder().encode(text);
  for (const [name, bytes] of Object.entries(texts)) {
    if (!it.give(put(encode(name + '\0')), put(bytes), bytes.length)) throw new RangeError('out of memory');
  }
  const line = encode(words.map(word => word + '\0').join(''));
  const status = it.run_words(put(line), line.length);
  if (status < 0) throw new RangeError('out of memory');
  const text = number => take(it.text_bytes(number), it.text_length(number));
  const made = {};
  for (let number = 2; number < it.text_count(); number++) {
    if (it.text_is_written(number)) made[nameAt(it, number)] = text(number);
  }
  return {status, out: text(0), err: text(1), made};
}

function nameAt(it, number) {
  const bytes = new Uint8Array(it.memory.buffer, it.text_name(number) >>> 0);
  return new TextDecoder().decode(bytes.slice(0, bytes.indexOf(0)));
}
