// The cause of a refusal as it is shown at once: a sentence for each reason, and beside the refused line the one that it contradicts.
import {lastLine, linesOf} from './seeming.mjs';

// By the numbers of the reasons. SIDE is the end that did it, OTHER the other one.
const SENTENCES = [null,
  'SIDE sent bytes that are not a DDCMP message.',
  'The capture of SIDE lists a unit as received twice, or out of order.',
  'SIDE received a unit that is not in the capture of OTHER.',
  'Both ends wait for a unit that the other has not sent yet.',
  'SIDE received bytes that OTHER did not send, and no block check shows damage.',
  'SIDE sent a message that a station may not send in this state.',
  'SIDE sent a message with the wrong number, NUM.',
  'SIDE acknowledged the wrong message: RESP is not the number of the last one that it received in order.',
  'SIDE sent one more packet, although 255 are not acknowledged yet.',
  'SIDE sent a packet again, but with other data.',
  'SIDE sent a NAK, but nothing had arrived that calls for it.',
  'SIDE says that it kept a packet that it can’t have kept.',
  'SIDE acted on a message that belongs to another start of the line.',
  'SIDE was started, although it had not been halted.',
  'SIDE sent a packet of a kind that a DDCMP circuit does not carry.',
  'A packet goes between nodes other than the two that the first lines name.',
  'SIDE sent a packet whose NSP message can’t be read.',
  'This is about a link that does not exist.',
  'The link exists, but is not in a phase in which this may happen.',
  'SIDE sent a segment that is not the next piece of what its user handed in.',
  'SIDE acknowledged a segment that it had not received, or one from before its last acknowledgement.',
  'SIDE sent a segment that is longer than its peer allows.',
  'SIDE sent one more segment, although 2,047 of this link are not acknowledged yet.',
  'SIDE delivered something other than the next whole message.',
  'SIDE acted on a message of another link, which had the same addresses.',
  'SIDE gave a link an address that another live link has.',
  'SIDE calls these bytes noise, but no block check shows damage.',
];

export const opposite = side => side === 'a' ? 'b' : 'a';

// What happened, in a sentence.
export function sentence({side, number, accuses}, isOneEnd) {
  const [own, other] = isOneEnd ? ['This end', 'The other end'] : [`End ${side}`, `End ${opposite(side)}`], isOther = accuses === 'other end';
  const said = (SENTENCES[number] || '').replace('SIDE', isOther ? other : own).replace('OTHER', isOther ? own : other);
  return said.replace(/(.)(End|This|The) /g, (_, before, word) => before + word.toLowerCase() + ' ');
}

// What the phases of a link mean, by their names.
const PHASES = {
  Calling: 'opened here, not answered yet', Called: 'called by the other end, its user has not answered', Confirming: 'its user accepted the call',
  RUN: 'both ends know it, and data may go', DI: 'its user closed or rejected it',
};

// The phases that a text names, with what they mean.
export const phasesIn = text => Object.entries(PHASES).filter(([name]) => new RegExp(`\\b${name}\\b`).test(text))
  .map(([name, meaning]) => `${name}: ${meaning}.`).join(' ');

const START = /^u start$/, KEPT = /^[kd] -?\d+ 81/, SENT = /^s 81/;

// The address of the link that a record is about, at its own end; or any, where the record doesn't tell it.
function addressIn({words, nsp}) {
  const [, own] = (words || '').match(/^(?:in|close|abort) (\d+)/) || (nsp || '').match(/ of link (\d+)/) || [];
  return own || '\\d+';
}
const doneWithLink = own => new RegExp(`^u ((open|close|abort) ${own}|(accept|reject) \\d+ ${own})$`);

// Of a reason the line before it, on the same side, that says otherwise, and what that line is; since the last start, or from the first line on.
const EARLIER = {
  6: () => [[/^u (start|halt|boot)$/, 'Its last start, halt or boot']],
  7: () => [[SENT, 'The data message that it sent before'], [START, 'It had sent no data message since this start']],
  8: () => [[KEPT, 'The last data message that it received in order'], [START, 'It had received no data message since this start']],
  10: ({bytes = ''}) => [[new RegExp(`^s 81.{6}${bytes.slice(8, 10)}`), 'The packet when it was sent before']],
  12: () => [[KEPT, 'The last packet that it kept'], [START, 'It had kept no packet since this start']],
  14: () => [[START, 'Its last start']],
  16: () => [[/^ddcap /, 'The first line, which names both nodes']],
  19: record => [[doneWithLink(addressIn(record)), 'What its user did last with that link']],
  20: record => [[new RegExp(`^u in ${addressIn(record)} `), 'What its user handed in last for that link'],
    [/^u in /, 'What its user handed in last']],
  26: ({words = ''}) => [[new RegExp(`^u (open|accept|reject) ${words.split(' ')[1]}( |$)`), 'Where that address was given before']],
};

// The same where one end shows that the other one broke a rule.
const OF_OTHER = {
  8: () => [[SENT, 'The last data message that was sent to it'], [START, 'No data message was sent to it since this start']],
};

// The line of either capture that the refused one contradicts: {side, line, title}; or null, where one end is known alone and nothing is found.
export function contradicted({refused, record, check, state}, texts, unit) {
  const {side, number, line} = refused, other = opposite(side), ofOther = state.find(it => it.side === other);
  const sent = unit && unit.match(/^(\d+) of ([ab]), [ab]:(\d+): (.*)/);
  if (sent && number !== 12) return {side: sent[2], line: Number(sent[3]), title: `What ${sent[2]} sent as unit ${sent[1]}`, words: sent[4]};
  const ended = number === 18 && check && check.seen.match(/ended in line (\d+)/);
  if (ended) return {side, line: Number(ended[1]), title: 'Where that link ended'};
  const earlier = (refused.accuses === 'other end' ? OF_OTHER : EARLIER)[number], rows = earlier ? earlier(record || {}) : [];
  const begin = lastLine(texts[side], START, line - 1);
  for (const [pattern, title] of rows) {
    const found = lastLine(texts[side], pattern, line - 1, pattern === KEPT || pattern === SENT ? begin : 1);
    if (found) return {side, line: found, title};
  }
  if (!texts[other] || !ofOther) return null;
  const last = ofOther.records + 1;
  const message = number === 24 && check && check.allowed.match(/ ([0-9a-f]{2,})(\.\.)?$/);
  const given = message && lastLine(texts[other], new RegExp(`^u in \\d+ ${message[1]}`), last);
  if (given) return {side: other, line: given, title: `The message that was handed in at ${other}`};
  if (number === 4) return {side: other, line: last + 1, title: `Where ${other} waits`};
  return {side: other, line: last, title: number === 3 ? `The last line of ${other}` : `The last line of ${other} before it`};
}

// What a line with a data message says, and what is said of a record.
const wordsOfLine = text => {
  const unit = text.match(/^(?:s|[rkd] -?\d+) 81.{4}(..)(..)/);
  return unit ? `DATA NUM ${parseInt(unit[2], 16)} RESP ${parseInt(unit[1], 16)}` : '';
};
const wordsOfRecord = ({kind, words, ddcmp, nsp}) => [{s: 'sent', r: 'received', k: 'kept', d: 'dropped', n: 'noise', x: 'composed', u: 'user'}[kind], words, ddcmp, nsp]
  .filter(Boolean).join(' ');

// The lines around a refused one, and around the one that it contradicts: [{title, words, side, line, lines, isRefused}, ..]
export function sideBySide(refusal, texts, unit) {
  const {refused: {side, line}, record} = refusal, it = contradicted(refusal, texts, unit);
  const found = [{title: 'Refused', words: record ? wordsOfRecord(record) : '', side, line, isRefused: true}];
  if (it && it.line > 0) found.push({words: wordsOfLine(linesOf(texts[it.side], it.line, it.line).map(({text}) => text).join()), ...it});
  return found.map(part => ({...part, lines: linesOf(texts[part.side], Math.max(1, part.line - 2), part.line + 1)}));
}
