// The readout of a slot: what a ship would carry there, at which draft, and who is in the way.
import {make, tonnes} from './api.js';

// How many restrictions are named before the rest is counted.
const MOST = 3;
const signed = (tenths) => `${tenths < 0 ? '−' : '+'}${tonnes(Math.abs(tenths))}`;

/** What a slot of a ship would be with all others where they are, in the readout and in words. */
export function slot_words(facts, ship, slot, draft) {
  const one = facts.ships[ship], value = one.values[slot], broken = one.broken[slot] ?? [], clock = facts.clock[slot];
  const rules = broken.filter((number) => number !== ship || value !== null).map((number) => facts.restrictions[number]);
  const carries = value === null ? shut(one, slot) : one.out ? `${tonnes(value)} t${draft === null ? '' : `, draft ${(draft / 100).toFixed(2)} m`}` : 'comes in';
  const here = slot === one.slot, late = too_late(facts, one, slot);
  const others = late || (here ? 'here now' : rules.length ? in_the_way(rules) : value === null ? '' : 'free: it could move there alone');
  const differs = here || value === null || one.slot >= facts.slots ? '' : ` (${signed(value - (one.values[one.slot] ?? 0))} t for this ship)`;
  const lines = [make('b', {}, `${one.name}, ${clock}, slot ${slot}`), ` — ${carries}${differs} `, make('br'),
    make('span', {className: late || rules.length || value === null ? 'q' : 'm'}, others)];
  return {clock, free: !broken.length && !late, text: `${clock}, ${carries}; ${others}`, lines};
}

const shut = (one, slot) => one.why.find(([from, to]) => from <= slot && slot <= to)?.[2] ?? 'outside its window';

const too_late = (facts, one, slot) => (one.sailed ? 'it has sailed' : slot < one.first ? `too early: it can't sail before ${facts.clock[one.first]}` : '');

const in_the_way = (rules) => `in the way: ${rules.slice(0, MOST).join('; ')}${rules.length > MOST ? `; and ${rules.length - MOST} more` : ''}`;
