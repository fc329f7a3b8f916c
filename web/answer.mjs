// The answer: the verdict at once; then the cause of a refusal; and last, by themselves, what small changes of the recordings tell.
import {$} from './boxes.mjs';
import {showTabs} from './tabs.mjs';
import {ALLOWED_FOR, accusedOf, conditionsOf, faultOf, printed} from './telling.mjs';
import {brokenView, causeView, link} from './views.mjs';
import {beginWork, endWork, workTold} from './work.mjs';

export const TITLE = document.title;

// What comes so soon is part of the first answer: the page may still scroll to it.
const SOON = 500;
let shownNow = null;

export const shownSession = () => shownNow;

// Judges, and shows what is known, as soon as it is. `page` has isCurrent(), false once something else is judged; focused(box), which gives an answer
// the focus; and judgeQueued(), which judges anew. An Error where there is no verdict.
export async function answer(session, page) {
  const it = {session, page, begun: performance.now(), known: null};
  $('.between').className = 'between busy';
  beginWork({what: 'judging', size: session.size, isOnce: true, isAnew: true, stop: () => session.judge.stop()});
  it.verdict = await session.judged(workTold);
  it.took = performance.now() - it.begun;
  if (session.answer.status === 1) it.known = await session.first();
  if (!page.isCurrent()) return;
  show(it);
  page.focused($('#verdict'));
  scroll();
  await explain(it);
}

// Shows why it is refused, as far as that is not known yet.
async function explain(it) {
  const {session, page} = it, work = (what, by) => beginWork({what, size: session.size, stop: () => by.stop()});
  try {
    if (it.known && it.known.stage === 'first') {
      work('looking for the cause', session.judge);
      it.known = await session.cause(workTold);
      if (!page.isCurrent()) return;
      show(it);
    }
    if (performance.now() - it.begun < SOON) scroll();
    if (it.known && it.known.stage === 'cause') {
      work('trying small changes', session.aside);
      it.known = await session.changes(workTold, it.known);
    }
  } catch (error) {
    it.known = {...it.known, lacks: error.message === 'stopped' ? 'that was stopped' : error.message};
  }
  if (!page.isCurrent()) return;
  const hadFocus = endWork();
  if (it.known) show(it);
  if (hadFocus) $('#verdict').focus({preventScroll: true});
  finish(it);
}

// All that is known by now.
function show(it) {
  const {session, verdict, known, took} = it, fault = faultOf(session.answer), box = $('#verdict');
  const refused = known && known.refusal && known.refusal.refused, isInside = box.contains(document.activeElement) && document.activeElement !== box;
  box.className = 'verdict ' + verdict.kind;
  box.querySelector('h2').textContent = verdict.title;
  box.querySelector('.first').textContent = verdict.first === verdict.title.toLowerCase() ? '' : verdict.first;
  const meaning = [verdict.meaning, verdict.kind !== 'fault' && ALLOWED_FOR[session.choice], ...conditionsOf(printed(session.answer))];
  box.querySelector('.meaning').textContent = meaning.filter(Boolean).join(' ');
  const again = () => explain(Object.assign(it, {known: {...known, lacks: undefined}})), broken = fault ? [brokenView(fault, session)] : [];
  const causes = refused ? causeView(known, session, verdict.first, {judgeQueued: it.page.judgeQueued, again}) : broken;
  box.querySelector('.parts').replaceChildren(...causes);
  mark(session, verdict, session.source ? null : refused || fault);
  const passed = session.source && session.source.packets ? [link('Save what passed on the line', 'line.wire', session.source.bytes)] : [];
  $('#saved').replaceChildren(...passed,
    ...Object.entries(session.made).map(([side, bytes]) => link(`Save the capture of ${side}`, `line.${side}`, bytes)));
  const size = session.given.reduce((sum, {bytes}) => sum + bytes.length, 0);
  $('#took').textContent = `${size.toLocaleString('en')} bytes, judged in ${took.toFixed(0)} ms.`;
  $('#result').hidden = false;
  document.title = `${verdict.title}: ${session.given.map(({name}) => name).join(', ')} - ddcap`;
  shownNow = session;
  showTabs(session, verdict, known);
  if (isInside) box.focus({preventScroll: true});
}

// Marks the line, and the box whose file has the place.
function mark(session, verdict, at) {
  $('.between').className = 'between ' + verdict.kind;
  for (const {side} of session.given) {
    $('#end-' + side).classList.toggle('good', verdict.kind === 'good');
    $('#end-' + side).classList.toggle('bad', Boolean(at && (session.isOneEnd || at.side === side)));
  }
}

// Nothing more comes: the reader of a screen is told the verdict in a sentence.
function finish({session, verdict, known, took}) {
  const accused = known && known.refusal && !session.isWire ? accusedOf(known) : null;
  $('#status').textContent = `${verdict.title}. ${verdict.first}${accused ? `. Accused: ${accused}` : ''}`;
  globalThis.shown = {status: session.answer.status, out: session.answer.out, err: session.answer.err, verdict, took};
}

// Scrolls to the answer, or to what was noted of it.
function scroll() {
  const isStill = matchMedia('(prefers-reduced-motion: reduce)').matches, {top, bottom} = $('#verdict').getBoundingClientRect();
  const first = $('#note').hidden ? $('#verdict') : $('#note');
  if (bottom > innerHeight && top > innerHeight / 4) first.scrollIntoView({behavior: isStill ? 'auto' : 'smooth'});
}
