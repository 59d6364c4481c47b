// The ships that are held, a chip each with a button that releases it, and what they cost.
import {by, make} from './api.js';
import {costs} from './verdict.js';

/** Shows a run's pins; `release(ship)` takes one away. */
export function pins(run, facts, release) {
  const [kind, words] = costs(run), ships = facts?.ships ?? [];
  const chips = Object.entries(run.pins).map(([ship, slot]) => {
    const name = ships[ship]?.name ?? `ship ${ship}`, off = make('button', {type: 'button'}, '✕');
    off.setAttribute('aria-label', `release ${name}`);
    off.addEventListener('click', () => release(ship));
    return make('span', {className: 'chip'}, `${name} held at ${facts?.clock[slot] ?? slot}`, off);
  });
  by('pins').replaceChildren(...(words ? [make('span', {className: `cost ${kind}`}, words)] : []),
    ...(chips.length ? chips : [make('span', {className: 'm'}, 'No ship is held.')]));
}
