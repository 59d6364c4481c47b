// The control room's wall: asks for the plan in force every ten seconds. It carries no token, so it can change nothing.
import {line, passed, signs} from './nowline.js';
import {Picture} from './picture.js';

const by = (id) => document.getElementById(id), day = document.body.dataset.day;
const picture = new Picture(by('picture'));
let seen = null, drawn = null, asked = 0;

function cell(tag, text, kind = '') {
  const one = document.createElement(tag);
  one.textContent = text;
  one.className = kind;
  return one;
}

/** The table: who is gone, and who is the next one by the clock, or else the first one that isn't gone. */
function rows(now) {
  const next = seen.rows.find((row) => !row.gone && row.slot !== null && (now === null || row.slot >= Math.floor(now)));
  by('rows').tBodies[0].replaceChildren(...seen.rows.map((row) => {
    const one = cell('tr', '', row.gone ? 'gone' : row === next ? 'next' : ''), name = cell('th', row.name);
    name.scope = 'row';
    one.append(cell('td', row.sails), name, cell('td', row.sense), cell('td', row.draft, 'r'), cell('td', row.slot === null ? '' : String(row.tugs), 'r'));
    return one;
  }));
}

function tick() {
  if (!seen) return;
  const now = passed(seen.start, seen.minutes, seen.slots), late = Date.now() - asked;
  by('clock').textContent = new Date().toTimeString().slice(0, 5);
  line(picture, now, by('clock').textContent);
  rows(now);
  by('seen').textContent = late < 30000 ? '' : `not heard from the board for ${Math.round(late / 1000)} seconds: this may be old`;
  by('seen').className = late < 30000 ? '' : 'stale';
}

async function ask() {
  const answer = await fetch(`/api/wall/${day}`).catch(() => null);
  if (answer?.status === 404) by('headline').textContent = 'No plan yet.';
  if (!answer?.ok) return;
  seen = await answer.json();
  asked = Date.now();
  by('which').textContent = `plan ${seen.plan}, ${seen.issue === null ? 'not issued' : `issue ${seen.issue}`}`;
  by('headline').textContent = seen.headline;
  by('seal').className = `seal ${seen.seal}`;
  by('build').textContent = seen.build;
  by('events').replaceChildren(...(seen.events.length ? seen.events.map((said) => cell('li', said)) : [cell('li', 'Nothing was told.', 'm')]));
  if (drawn !== seen.run) {
    const svg = await fetch(`/picture/${seen.run}.svg`);
    if (svg.ok) { picture.show(await svg.text()); signs(picture, seen.pins); drawn = seen.run; }
  }
  tick();
  document.body.dataset.ready = 'yes';
}

await ask();
setInterval(ask, 10000);
setInterval(tick, 5000);
