// The judge behind the page: the program in a worker. One run at a time; stop() ends what runs, and the next question has a new worker.

export class Judge {
  #module;
  #url;
  #worker = null;
  #waiting = new Map();
  #asked = 0;

  constructor(module, source) {
    this.#module = module;
    this.#url = URL.createObjectURL(new Blob([source], {type: 'text/javascript'}));
  }

  // What the program answers to these words over these texts: {status, out, err, made}. An Error where the run breaks off, or is stopped.
  // Meanwhile `told` is called with how many bytes were read; `again` is how often each text can be begun again (always, where it is left out).
  ask(words, texts, {told = () => {}, again} = {}) {
    return this.#send({words, texts, again}, told);
  }

  // What passed on the line in a packet capture: what `wireIn` answers to the same.
  wireIn(packets, asked, told) {
    return this.#send({packets, asked}, told);
  }

  #send(message, told) {
    return new Promise((answer, fail) => {
      const number = ++this.#asked;
      this.#waiting.set(number, {answer, fail, told});
      this.#begun().postMessage({number, ...message});
    });
  }

  // Whether an answer is waited for.
  get isBusy() {
    return this.#waiting.size > 0;
  }

  stop() {
    if (!this.#worker) return;
    this.#worker.terminate();
    this.#worker = null;
    for (const {fail} of this.#waiting.values()) fail(new Error('stopped'));
    this.#waiting.clear();
  }

  #begun() {
    if (this.#worker) return this.#worker;
    this.#worker = new Worker(this.#url);
    this.#worker.onmessage = ({data}) => this.#take(data);
    this.#worker.onerror = event => {
      for (const {fail} of this.#waiting.values()) fail(new Error(event.message || 'the worker failed'));
      this.#waiting.clear();
    };
    this.#worker.postMessage({module: this.#module});
    return this.#worker;
  }

  #take({number, read, broken, ...answered}) {
    const it = this.#waiting.get(number);
    if (!it) return;
    if (read !== undefined) {
      it.told(read);
      return;
    }
    this.#waiting.delete(number);
    if (broken) it.fail(new Error(broken));
    else it.answer(answered);
  }
}
