// What is listed under a plan's picture: what moves, the table, the certificate.
import {by, make} from './api.js';

// The columns of the table that are texts.
const TEXTS = new Set(['ship', 'name', 'direction', 'limiting waypoint']);

export function lists(run) {
  by('moves').hidden = !run.moves.length;
  by('moves').querySelector('ul').replaceChildren(...run.moves.map((line) => make('li', {}, line)));
  table(run.table);
  certificate(run);
}

function table(rows) {
  const columns = rows.length ? Object.keys(rows[0]) : [], right = (name) => (TEXTS.has(name) ? '' : 'r');
  by('table').replaceChildren(make('caption', {className: 'unseen'}, 'The sailings of this plan'),
    make('thead', {}, make('tr', {}, ...columns.map((name) => make('th', {scope: 'col', className: right(name)}, name)))),
    make('tbody', {}, ...rows.map((row) => make('tr', {},
      ...columns.map((name) => make('td', {className: `${right(name)} ${name === 'name' ? 'b' : ''}`}, row[name]))))));
}

function certificate(run) {
  const links = run.cert ? [make('a', {href: `/object/${run.cert}`}, 'the certificate'), ' · ', make('a', {href: `/picture/${run.id}.svg`}, 'the picture alone')] : [];
  by('cert').replaceChildren('SHA-256 ', make('code', {}, run.cert ?? 'none'), ' ', ...links, ` · ${run.state} after ${run.seconds ?? '…'} s, budget ${run.budget}`);
}
