// The button that plans the day: a run, or several by their seeds, and what they have found so far.
import {by, follow, make, post, tell, tonnes} from './api.js';
import {draw} from './progress.js';

/**
 * Makes the buttons work; `running` is the day's run that is under way, if there is one.
 * `settled` keeps what was typed last; `faulty` marks the faults for which a day isn't planned.
 */
export function planning(day, running, settled, faulty) {
  draw(by('chart'), []);
  if (running !== null) {
    by('plan').disabled = true;
    watch(day, running).catch((fault) => { by('state').textContent = fault.message; });
  }
  by('plan').addEventListener('click', async () => {
    by('plan').disabled = true;
    await settled();
    by('state').textContent = 'begins';
    try {
      await plan(day);
    } catch (fault) {
      by('state').textContent = fault.message;
      by('plan').disabled = false;
      if (fault.said?.told) faulty(fault.said.told);
    }
    by('stop').disabled = true;
  });
}

async function plan(day) {
  const {run} = await post(`/api/day/${day}/plan`, {budget: Number(by('budget').value), race: by('race').checked});
  tell('planning');
  await watch(day, run);
}

/** Follows a run to its end, and goes to its plan. */
async function watch(day, run) {
  by('stop').disabled = false;
  by('stop').onclick = () => post(`/api/run/${run}/stop`);
  const end = await follow(run, show);
  by('plan').disabled = false;
  const note = end.fault ?? `${end.state}, ${end.seconds} s; verify: ${end.verdict}`;
  by('state').replaceChildren(make('b', {className: end.seal ? 'good' : ''}, end.headline), make('br'), make('span', {className: 'm'}, note));
  tell(end.headline);
  if (end.verdict) location.href = `/day/${day}/plan/${end.id}`;
}

// When the last words on a search were said aloud, and how often they are, in milliseconds.
let aloud = 0;
const OFTEN = 10000;

/** Shows how far the search is, all of it claims of the run. */
function show(now) {
  draw(by('chart'), now.points, now.now);
  const [seconds, lemmas, best, bound] = now.now ?? now.points.at(-1) ?? [0, 0, null, null];
  const many = now.searches > 1 ? `${now.searches} searches, ` : '';
  by('state').replaceChildren(make('b', {}, best === null ? 'searching' : `${tonnes(best)} t`),
    ` found${bound === null ? '' : `, none above ${tonnes(bound)} t`}`, make('br'),
    make('span', {className: 'm'}, `${many}${lemmas} lemmas, ${seconds.toFixed(1)} s; not verified yet`));
  if (best === null || performance.now() < aloud + OFTEN) return;
  aloud = performance.now();
  tell(by('state').textContent);
}
