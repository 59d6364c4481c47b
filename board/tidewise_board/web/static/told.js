// What the program says of a day, a line each; a line leads to its cell.
import {make} from './api.js';

/** Shows faults and hints. `elsewhere` goes to a fault that isn't in the sheet. */
export function tell_faults(host, told, sheet, elsewhere) {
  const lines = told.map((one) => {
    const line = make('button', {type: 'button', className: one.hint ? 'hinted' : ''},
      `${one.hint ? 'perhaps: ' : ''}${place(one, sheet)}: ${one.said}`);
    line.addEventListener('click', () => (one.row !== null ? sheet.cell(one.row, Math.max(0, sheet.place(one.column)))?.focus() : elsewhere(one)));
    return make('p', {}, line);
  });
  const clean = make('p', {className: 'm'}, 'The program reads the day without a fault, and finds nothing odd.');
  const said = lines.length ? lines : [clean];
  // What is said again isn't read out again.
  if (host.textContent !== said.map((one) => one.textContent).join('')) host.replaceChildren(...said);
}

function place(one, sheet) {
  if (one.row === null) return one.where;
  const name = sheet.rows[one.row]?.[sheet.place('name')] ?? '';
  return `ship ${one.row} ${name}${one.column ? `, ${one.column}` : ''}`;
}
