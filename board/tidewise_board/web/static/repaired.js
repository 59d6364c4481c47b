// A repair beside the plan: who moves from when to when, the tonnes, and why nothing fits where it doesn't.
import {by, follow, get, make, post, tell} from './api.js';
import {named} from './who.js';

export class Repaired {
  /** `plan` is the page's plan, `now()` the slot that it is, `drawn(run, pins)` draws a repair. */
  constructor(plan, now, drawn) {
    Object.assign(this, {plan, now, drawn, run: null});
    by('repair').addEventListener('click', () => this.prove());
    by('accept').addEventListener('click', () => this.deed(`/api/run/${this.run}/accept`));
    by('keep').addEventListener('click', () => this.deed(`/api/plan/${plan.plan}/keep`));
  }

  async prove() {
    by('repair').disabled = true;
    by('state').textContent = 'proving the repair';
    try {
      const begun = await post(`/api/plan/${this.plan.plan}/repair`, {now: this.now()});
      this.run = begun.run;
      await this.show(await follow(begun.run), begun.noted);
    } catch (fault) {
      by('state').textContent = fault.message;
    }
    by('repair').disabled = false;
  }

  async show(end, noted) {
    const fits = end.timetable !== null;
    by('state').replaceChildren(make('b', {className: end.seal ? 'good' : ''}, end.headline), make('br'), make('span', {className: 'm'}, `${end.fault ?? end.meaning}; verify: ${end.verdict}`));
    by('noted').replaceChildren(...noted.map((words) => make('li', {}, words)));
    tell(end.headline);
    this.beside(end, fits ? await get(`/api/plan/${this.plan.plan}/changes/${end.id}`) : {rows: [], total: ''});
    const clash = end.word === 'infeasible' ? (await get(`/api/run/${end.id}/why`)).kept : [];
    by('clash').replaceChildren(...clash.map((words) => make('li', {className: 'q'}, words)));
    by('new').hidden = !fits;
    if (fits) await this.drawn(end.id, end.pins);
    by('h-repair').scrollIntoView({block: 'nearest'});
  }

  beside(run, changes) {
    const moved = changes.rows.filter((row) => row.moved).length, fits = run.timetable !== null;
    by('repaired').hidden = false;
    by('touch').href = `/day/${this.plan.day}/plan/${run.id}`;
    by('accept').disabled = !fits;
    by('total').textContent = fits ? `${moved} ${moved === 1 ? 'ship moves' : 'ships move'}, ${changes.total} t` : '';
    by('moves').tBodies[0].replaceChildren(...changes.rows.map(line));
  }

  /** What is done under a name, after which the page is shown anew. */
  async deed(path) {
    try {
      await named();
      await post(path);
      location.reload();
    } catch (fault) {
      by('state').textContent = fault.message;
    }
  }
}

function line(row) {
  const [before, after] = row.drafts;
  return make('tr', {className: row.moved ? 'b' : ''}, make('th', {scope: 'row'}, row.ship), make('td', {className: 'r'}, row.before), make('td', {className: 'r'}, row.after),
    make('td', {className: 'r'}, before === after ? before : `${before} → ${after}`), make('td', {className: `r ${row.difference.startsWith('−') ? 'q' : 'good'}`}, row.difference));
}
