// What is asked of the program over one drop, each question once: two captures, one, a wire text, or a script.
import {answerOf, printed, refusalOf, refusedIn, verdictOf} from './telling.mjs';

// By what is judged, the program's word for it: nodes that act at once, nodes with queues, DDCMP alone. `tap` always allows for queues.
const OPTIONS = {plain: [], queued: ['--queued'], line: ['--line']};

// Reasons that a queue may explain, as `why` has them. It says so of a pair, and not of one end.
const MAY_BE_QUEUED = [18, 19, 20, 21];

// A text is read a second time to find what is near a refused record; each small change would be one time more.
const WITHOUT_CHANGES = 1;

export class Session {
  // `given` are {side, name, bytes, packets, kind}, as `seeming` tells the kind; `choice` is one of OPTIONS, and of a wire text not `plain`. What
  // takes long and is not waited for is asked of `aside`, a judge of its own.
  constructor(judge, aside, given, choice) {
    this.judge = judge;
    this.aside = aside;
    this.given = given;
    this.asked = new Map();
    this.made = {};
    this.names = given.length === 1 ? ['a'] : given.map(({side}) => side);  // the program calls one end a, wherever it was dropped
    this.texts = Object.fromEntries(given.map(({bytes}, i) => [this.names[i], bytes]));
    this.source = given.find(({kind}) => kind !== 'capture');
    this.choice = choice;
    this.options = OPTIONS[this.choice];
  }

  get size() {
    return Object.values(this.texts).reduce((sum, {length}) => sum + length, 0);
  }

  get isWire() {
    return this.source !== undefined && this.source.kind === 'wire';
  }

  get isOneEnd() {
    return this.names.length === 1;
  }

  // What the text is called that the program calls so.
  nameOf(text) {
    if (!this.source) return this.given[this.names.indexOf(text)].name;
    return text in this.texts ? `the capture made of ${text}` : this.sourceName;
  }

  // What the text of both ends is called.
  get sourceName() {
    return this.source.packets ? `the text made of ${this.source.name}` : this.source.name;
  }

  // Its bytes.
  bytesOf(text) {
    return this.texts[text] || (this.source ? this.source.bytes : new Uint8Array());
  }

  // The answer to these words over the captures.
  ask(...words) {
    const key = words.join(' ');
    if (!this.asked.has(key)) this.asked.set(key, this.judge.ask(words, this.texts));
    return this.asked.get(key);
  }

  // The picture of a pair, which has the names of the files where the program can take them as those of two files.
  async picture() {
    const found = this.names.map(name => this.source ? `${this.source.name} (${name})` : this.nameOf(name));
    const isTaken = name => !name || name.startsWith('-') || name === 'svg';
    const names = found[0] === found[1] || found.some(isTaken) ? this.names : found;
    const texts = Object.fromEntries(names.map((name, i) => [name, this.texts[this.names[i]]]));
    return (await this.judge.ask(['draw', ...names, ...this.options, '--svg', 'svg'], texts)).made.svg;
  }

  // Judges. A wire text or a script gives the two captures first, which then are the texts of all that is asked.
  async judged(told) {
    if (this.source) {
      const {kind, bytes} = this.source, line = this.choice === 'line' ? OPTIONS.line : [];
      const words = this.isWire ? ['tap', 'wire', 'a', 'b', ...line] : ['play', 'script', 'a', 'b'];
      const answer = await this.judge.ask(words, {[kind]: bytes}, {told});
      const is_written = this.isWire ? answer.status < 2 : answer.status === 0;
      if (is_written) this.made = this.texts = answer.made, this.names = ['a', 'b'];
      if (this.isWire || !is_written) return this.#found(answer);
    }
    return this.#found(await this.judge.ask([this.isOneEnd ? 'alone' : 'check', ...this.names, ...this.options], this.texts, {told}));
  }

  // What is known of a refusal by its first line alone: {refusal, text, meaning, stage}. `refusal` is null where there is no such line.
  async first() {
    const refusal = refusedIn(printed(this.answer));
    return {refusal, text: '', meaning: refusal ? await this.#meaning(refusal) : '', stage: 'first'};
  }

  // Of a refusal its parts, and the words of `why`, where it knows the words of the judgement: of a pair all but what small changes tell, of one end
  // all.
  async cause(told) {
    const again = this.isOneEnd ? undefined : WITHOUT_CHANGES;
    let before = 0, last = 0;
    const tells = {told: read => told(before + (last = read)), again};
    const ask = (...words) => this.judge.ask(['why', ...words, ...this.names, ...this.options], this.texts, tells);
    const json = await ask('--json'), isTold = json.status === 1;
    before = last;
    const refusal = isTold ? refusalOf(json) : refusedIn(printed(this.answer));
    if (!refusal) return {refusal: null, text: printed(json), stage: 'all'};
    if (this.isOneEnd && this.#mayBeQueued(refusal)) refusal.queued = await this.#aloneWithQueue();
    const text = isTold ? printed(await ask()) : '';
    const isAccusedLate = !this.isOneEnd && this.#mayBeQueued(refusal);
    return {refusal, text, isAccusedLate, meaning: await this.#meaning(refusal), stage: this.isOneEnd || !isTold ? 'all' : 'cause'};
  }

  // The same of a pair with what small changes tell, each of which is judged, and whom a queue may excuse.
  async changes(told, {isAccusedLate, ...cause}) {
    const ask = (...words) => this.aside.ask(['why', ...words, ...this.names, ...this.options], this.texts, {told});
    const refusal = refusalOf(await ask('--json')), text = isAccusedLate ? printed(await ask()) : cause.text;
    return {...cause, refusal, text, stage: 'all'};
  }

  // All that `why` prints.
  async printedWhy() {
    const whole = await this.aside.ask(['why', ...this.names, ...this.options], this.texts);
    return printed(whole.status === 1 ? whole : this.answer);
  }

  async #meaning({refused}) {
    return printed(await this.judge.ask(['explain', String(refused.number)], {}));
  }

  #mayBeQueued({refused}) {
    return this.choice === 'plain' && MAY_BE_QUEUED.includes(refused.number);
  }

  // What a queue would make of one end, as `why` says it of a pair; or undefined, where its capture has a fault further on.
  async #aloneWithQueue() {
    const answer = await this.ask('alone', '--json', ...this.names, ...OPTIONS.queued);
    return answer.status < 2 ? answerOf(answer) : undefined;
  }

  #found(answer) {
    this.answer = answer;
    this.verdict = verdictOf(answer, this.isOneEnd, this.isWire);
    return this.verdict;
  }
}
