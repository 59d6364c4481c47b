// Why nothing fits: the restrictions that clash, in sentences, and red in the picture where that can be drawn.
import {by, get, make} from './api.js';

const HOLDS = 'check clash: clash holds. These together leave no timetable; without any one of them there is one.';

/** Shows the clash of a run, or hides its place. `picture` shows it where no plan that fits came before. */
export async function clash(run, picture) {
  by('why').hidden = run.word !== 'infeasible';
  if (run.word !== 'infeasible') return;
  const answer = await get(`/api/run/${run.id}/why`), said = by('why').querySelector('p');
  by('why').querySelector('ul').replaceChildren(...answer.kept.map((line) => make('li', {}, line)));
  said.textContent = answer.holds ? `${HOLDS} The picture is that of the last plan that fits.` : answer.said;
  if (answer.holds && picture) {
    const drawn = await fetch(`/picture/${run.id}/clash.svg`);
    if (drawn.ok) picture.show(await drawn.text());
    said.textContent = `${HOLDS} They are red in the picture.`;
  }
  by('readout').replaceChildren(make('b', {className: 'q'}, 'Nothing fits: '), answer.kept.join('; '));
}
