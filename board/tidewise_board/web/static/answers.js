// The answers of a day, the latest first; two of them can be chosen to be compared.
import {by, get, make} from './api.js';

/** Lists them. `now` is the run that the page shows, `day` its day. */
export async function answers(day, now) {
  const {rows} = await get(`/api/day/${day}/answers`);
  by('answers').tBodies[0].replaceChildren(...rows.map((row) => line(day, row, now)));
}

function line(day, row, now) {
  const words = row.kind === 'pin' ? `hold ${row.label}` : row.label;
  const beside = row.id === now || row.word === '' ? '' : make('a', {href: `/compare/${now}/${row.id}`}, 'beside this');
  if (beside) beside.setAttribute('aria-label', `compare with ${words}, answer ${row.id}`);
  return make('tr', {className: row.id === now ? 'b' : ''}, make('td', {}, make('a', {href: `/day/${day}/plan/${row.id}`}, words)),
    make('td', {className: row.word === 'infeasible' ? 'q' : row.seal ? 'good' : ''}, row.ended ? row.headline : 'under way'),
    make('td', {className: 'r'}, row.difference), make('td', {className: 'r'}, beside));
}
