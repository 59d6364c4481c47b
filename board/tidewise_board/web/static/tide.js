// The tide of a day: the program's own table, or a printed list for each waypoint.
import {make} from './api.js';

/** Fills the panel; each change of a text calls `changed`. */
export function tide(panel, source, waypoints, changed) {
  panel.replaceChildren();
  if (source.table !== null) whole(panel, source, waypoints, changed);
  else for (const [place, one] of source.lists.entries()) printed(panel, place, one, changed);
}

/** Marks the texts of the tide that have a fault: the list of the waypoint that a fault names, else all. */
export function mark_tide(panel, source, told) {
  const faults = told.filter((one) => one.where === 'tide' && !one.hint).map((one) => one.said);
  const named = source.table === null ? source.lists.map((one) => one.waypoint) : [];
  panel.querySelectorAll('textarea').forEach((area, place) => {
    const own = faults.filter((said) => said.startsWith(named[place] ?? '') || !named.some((name) => said.startsWith(name)));
    if (own.length) area.setAttribute('aria-invalid', 'true'); else area.removeAttribute('aria-invalid');
    area.title = own.join('\n');
  });
}

function whole(panel, source, waypoints, changed) {
  const area = make('textarea', {id: 'table', value: source.table, spellcheck: false});
  area.addEventListener('input', () => { source.table = area.value; changed(); });
  const swap = make('button', {type: 'button'}, 'Take a printed table instead');
  swap.addEventListener('click', () => {
    source.table = null;
    source.lists = waypoints.map((waypoint) => ({waypoint, text: '', differences: ''}));
    tide(panel, source, waypoints, changed);
    panel.querySelector('textarea')?.focus();
    changed();
  });
  panel.append(make('label', {className: 'm', htmlFor: 'table'}, 'The tide table: heights in centimetres by slot, or high and low waters'),
    area, swap);
}

function printed(panel, place, one, changed) {
  const area = make('textarea', {id: `w${place}`, value: one.text, spellcheck: false, placeholder: '2027-03-14 03:39 0.58'});
  const more = make('input', {value: one.differences, placeholder: 'differences, as +24m*1.03-5cm', spellcheck: false});
  more.setAttribute('aria-label', `differences at ${one.waypoint}`);
  area.addEventListener('input', () => { one.text = area.value; changed(); });
  more.addEventListener('input', () => { one.differences = more.value; changed(); });
  panel.append(make('div', {className: 'one'},
    make('label', {className: 'm', htmlFor: `w${place}`}, `High and low waters at ${one.waypoint}, as printed`), area, more));
}
