// Windows of a ship: draft against clock time, to which draft she can load for a sailing, and when she may sail with a draft.
import {by, data, get} from './api.js';
import {Curve} from './curve.js';

const {day, clock} = data();
const curve = new Curve(by('curve'), by('legend'), (slot) => choose(slot));
let known = null, asked = 0;

const address = (more = '') => `/api/day/${day}/windows/${by('ship').value}${more}`;

/** Shows a ship's curve, and what she would load in her first good slot. */
async function ship() {
  const mine = ++asked, found = await get(address());
  if (mine !== asked) return;
  known = found;
  const slots = new Set(found.at.map((one) => String(one.slot)));
  for (const option of by('at').options) option.disabled = !slots.has(option.value);
  curve.show(found);
  const best = found.at.reduce((one, other) => ((other.draft ?? -1) > (one?.draft ?? -1) ? other : one), null) ?? found.at[0];
  by('to').value = best?.draft ? (best.draft / 100).toFixed(2) : '';
  if (best) choose(best.slot);
  await when();
  document.body.dataset.shown = by('ship').value;
}

/** What she has loaded when she sails in a slot. */
function choose(slot) {
  const at = known.at.find((one) => one.slot === slot);
  by('at').value = String(slot);
  by('sails').textContent = at?.said ?? `${clock[slot]}: outside her window`;
  curve.point(slot);
}

/** In which slots she may sail with the draft that was typed. */
async function when() {
  if (!by('to').value.trim()) { by('loads').textContent = 'no draft is given'; curve.mark([]); return; }
  try {
    const found = await get(address(`/to?draft=${encodeURIComponent(by('to').value)}`));
    by('loads').textContent = found.said;
    curve.mark(found.slots, found.draft);
  } catch (fault) {
    by('loads').textContent = fault.message;
    curve.mark([]);
  }
}

by('ship').addEventListener('change', ship);
by('at').addEventListener('change', () => choose(Number(by('at').value)));
by('form').addEventListener('submit', (event) => { event.preventDefault(); when(); });
for (const one of document.querySelectorAll('[data-ship]')) {
  one.addEventListener('click', () => { by('ship').value = one.dataset.ship; ship(); scrollTo(0, 0); });
}
if (by('ship').options.length) await ship();
