// What-ifs: variants of the day, each planned and checked for itself.
import {by, get, make, post, sleep} from './api.js';

const NONE = 'A tug more or less, ten centimetres more at each waypoint, closed hours: each is planned for itself, and its cargo is verified.';
// What can be changed: whose names are offered, with the word for all of them; a value to begin with; and what a value may be.
const KINDS = {
  usual: {hint: 'a tug less, a tug more, ten centimetres more at each waypoint'},
  fleet: {value: '+1', hint: 'tugs: as 7, +1, -1 or 4..8'},
  depth: {of: ['waypoints'], all: 'each waypoint', value: '+10', hint: 'centimetres: as +10, -10 or 1410'},
  close: {of: ['waypoints', 'ships'], all: 'the port', value: '14:00-16:00', hint: 'closed every day: as 14:00-16:00; or once: 15 Mar 14:00 to 15 Mar 16:00'},
  later: {of: ['ships'], all: 'each ship', value: '0:30', hint: 'can sail only so much later, in hours and minutes'},
  deep: {of: ['ships'], value: '16.50', hint: 'her greatest draft, in metres'},
  tugs: {of: ['ships'], value: '2', hint: 'tugs of this ship'},
  separation: {value: '-0:15', hint: 'every separation so much less, in hours and minutes'},
  without: {of: ['ships'], hint: 'this ship doesn’t sail'},
};

/** Makes the form work; `now()` is the run that the page shows, `names` are those of the port. */
export function whatifs(now, names) {
  by('change').addEventListener('change', () => offer(names));
  by('whatif').addEventListener('submit', async (event) => {
    event.preventDefault();
    try {
      by('whathint').textContent = KINDS[by('change').value].hint;
      await post(`/api/run/${now()}/whatif`, {changes: words()});
      await list(now());
    } catch (fault) {
      by('whathint').textContent = fault.message;
    }
  });
  offer(names);
  return list(now());
}

/** Shows what belongs to the kind of change that is chosen. */
function offer(names) {
  const {of, all, value, hint} = KINDS[by('change').value];
  const found = (of ?? []).flatMap((kind) => names[kind]);
  by('whose').replaceChildren(...(all ? [make('option', {value: ''}, all)] : []), ...found.map((one) => make('option', {value: one}, one)));
  by('whose').disabled = !of;
  by('value').value = value ?? '';
  by('value').disabled = value === undefined;
  by('whathint').textContent = hint;
}

/** The change in the words of `tw try`. */
function words() {
  const kind = by('change').value, whose = by('whose').value, front = `${kind}${whose ? `.${whose}` : ''}`;
  if (kind === 'usual') return [];
  return [by('value').disabled ? front : `${front}=${by('value').value.trim()}`];
}

/** Lists the variants, again and again until all of them have ended. */
async function list(run) {
  for (;;) {
    const {rows} = await get(`/api/run/${run}/whatifs`);
    by('whatifs').tBodies[0].replaceChildren(...(rows.length ? rows.map(line) : [make('tr', {}, make('td', {className: 'm'}, NONE))]));
    if (rows.every((row) => row.ended)) return;
    await sleep(300);
  }
}

function line(row) {
  const label = row.ended && row.cert ? make('a', {href: `/compare/${row.base}/${row.run}`}, row.label) : row.label;
  return make('tr', {}, make('td', {}, label), make('td', {className: `r ${row.seal ? 'good' : ''}`}, row.ended ? row.difference || row.word : '…'));
}
