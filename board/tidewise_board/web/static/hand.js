// A plan by hand is judged, and priced beside the program's.
import {by, make, post, tell} from './api.js';
import {named} from './who.js';

/** Makes the form work over these days; `changed` is called when a plan was put in. */
export function hand(rows, changed) {
  const form = by('hand');
  form.elements.day.replaceChildren(...rows.map((row) => make('option', {value: String(row.day)}, row.name)));
  form.addEventListener('submit', async (event) => {
    event.preventDefault();
    by('said').textContent = '';
    by('judged').hidden = true;
    try {
      await named();
      judged(await post(`/api/owner/hand/${form.elements.day.value}`, {text: form.elements.text.value}));
      await changed();
    } catch (fault) {
      by('said').textContent = fault.message;
    }
  });
}

function judged(answer) {
  by('by-hand').textContent = answer.permitted ? `By hand: ${answer.cargo} t, permitted.` : `By hand: not permitted. It would carry ${answer.cargo} t.`;
  by('by-hand').className = answer.permitted ? '' : 'q';
  by('more').textContent = `The program’s plan: ${answer.more} t.`;
  by('by-program').textContent = answer.headline;
  by('by-program').className = answer.seal ? 'good' : 'm';
  by('broken').replaceChildren(...answer.broken.map((line) => make('li', {className: 'q'}, `breaks: ${line}`)));
  by('ships').tBodies[0].replaceChildren(...answer.rows.map((row) => make('tr', {className: row.hand === row.program ? '' : 'b'}, make('th', {scope: 'row'}, row.ship),
    make('td', {className: 'r'}, row.hand), make('td', {className: 'r'}, row.program), make('td', {className: 'r'}, row.hand_cargo), make('td', {className: 'r'}, row.program_cargo))));
  by('judged').hidden = false;
  tell(by('by-hand').textContent);
}
