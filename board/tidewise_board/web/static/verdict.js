// The head of a plan: its seal, its headline, who checked it, and what a pin costs. All of it is the board's own words.
import {by, make, tell} from './api.js';

export function busy(words) {
  by('seal').className = 'seal busy';
  by('headline').textContent = words;
  by('readout').replaceChildren(make('b', {}, `${words} …`));
  tell(words);
}

export function failed(words) {
  by('meaning').textContent = words;
  by('seal').className = 'seal nothing';
}

export function verdict(run) {
  const kind = run.word === 'infeasible' ? 'nothing' : run.seal;
  by('seal').className = `seal ${kind}`;
  by('headline').textContent = run.headline;
  by('meaning').textContent = run.fault ?? run.meaning;
  tell(`${run.headline}. ${run.difference}`);
  marks(run);
}

/** What checked it: the program, and the second checker, which comes later. */
export function marks(run) {
  const chip = (kind, words, title = '') => make('span', {className: `chip ${kind}`, title}, words);
  const second = run.second === null ? (run.kind === 'plan' ? 'second checker: at work' : 'second checker: takes no repair')
    : run.second_agrees ? 'second checker agrees' : `second checker: ${run.second}`;
  by('marks').replaceChildren(...(run.outdated ? [chip('bad', 'the day was changed since')] : []),
    chip(run.seal ? 'good' : '', `verify: ${run.verdict ?? 'nothing'}`, 'what verify prints of the bytes that are kept'),
    chip(run.second_agrees ? 'good' : run.second ? 'bad' : '', second));
}

/** What a pin costs: a class, and the words. */
export const costs = (run) => [/^(wins|costs nothing)/.test(run.difference) ? 'good' : 'q', run.difference];
