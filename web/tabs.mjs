// The tabs below the verdict: what each shows, and how it is chosen. What is not known yet is shown as soon as it is.
import {$} from './boxes.mjs';
import {faultOf, printed} from './telling.mjs';
import {countsView, coverView, faultView, keyView, link, make, pictureView, textView, whyView} from './views.mjs';

const QUIET_TAB = 500;
let shownOf = null, tabs = [], chosen = 0;

// By their names, in order: what each shows of a session. `known` is what is known of a refusal, or null.
function tabsOf(session, verdict, known) {
  const {names, options} = session, isPair = names.length === 2, found = [], fault = faultOf(session.answer);
  const text = async (isHere, ...words) => [textView(printed(await session.ask(...words)), isHere)];
  if (known) found.push(['Why', async () => whyView(known, session)]);
  else if (verdict.kind === 'good') found.push(['Counts', async () => countsView(printed(session.answer))]);
  else if (fault) found.push(['What is wrong', async () => faultView(fault, session)]);
  if (verdict.kind !== 'fault') {
    const isRefused = row => row.includes('<== refused'), at = known && known.refusal ? known.refusal.refused : {};
    if (isPair) {
      found.push(['Picture', () => picture(session)]);
      found.push(['Ladder', async () => [...await text(isRefused, 'draw', ...names, ...options), keyView()]]);
      found.push(['Rules met', async () => coverView(printed(await session.ask('cover', ...names, ...options)))]);
    }
    for (const side of names) {
      const isIt = row => side === at.side && row.startsWith(at.record + ' ');
      found.push([isPair ? `Records of ${side}` : 'Records', () => text(isIt, 'show', side)]);
    }
  }
  found.push(['As printed', async () => [textView(known && known.stage === 'all' ? await session.printedWhy() : printed(session.answer))]]);
  return found;
}

async function picture(session) {
  const svg = await session.picture(), saving = make('p', {}, link('Save the picture', 'ddcap.svg', svg, 'image/svg+xml'));
  return [pictureView(svg), saving, keyView()];
}

const buttons = () => [...$('.tabs').children];

// Shows what a tab has, of the session that is shown by then.
async function choose(number, isMoved) {
  chosen = number;
  buttons().forEach((button, each) => {
    button.setAttribute('aria-selected', each === number);
    button.tabIndex = each === number ? 0 : -1;
  });
  const [, partsOf] = tabs[number], isStill = () => tabs[number]?.[1] === partsOf && chosen === number;
  $('#panel').setAttribute('aria-labelledby', 'tab-' + number);
  if (isMoved) buttons()[number].focus();
  const late = setTimeout(() => isStill() && $('#panel').replaceChildren(make('p', {className: 'soft'}, 'working ..')), QUIET_TAB);
  let parts;
  try {
    parts = await partsOf();
  } catch (error) {
    parts = [make('p', {}, `This could not be shown: ${error.message}`)];
  }
  clearTimeout(late);
  if (isStill()) $('#panel').replaceChildren(...parts);
}

// Shows the tabs of a session, the first one chosen; or of the same one what is known by now, in the tab that is chosen.
export function showTabs(session, verdict, known) {
  const before = tabs, isLate = chosen === 0 || chosen === before.length - 1;
  tabs = tabsOf(session, verdict, known);
  if (session === shownOf) {
    if (isLate) choose(chosen);
    else tabs[chosen] = before[chosen];
    return;
  }
  shownOf = session;
  $('.tabs').replaceChildren(...tabs.map(([name], number) =>
    make('button', {type: 'button', id: 'tab-' + number, role: 'tab', 'aria-controls': 'panel', onclick: () => choose(number)}, name)));
  choose(0);
}

$('.tabs').onkeydown = event => {
  const at = buttons().indexOf(document.activeElement), count = tabs.length;
  const to = {ArrowRight: (at + 1) % count, ArrowLeft: (at + count - 1) % count, Home: 0, End: count - 1}[event.key];
  if (at < 0 || to === undefined) return;
  event.preventDefault();
  choose(to, true);
};
