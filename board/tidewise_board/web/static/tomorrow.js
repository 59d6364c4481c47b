// Rolls a day on to tomorrow.
import {by, post} from './api.js';
import {named} from './who.js';

by('roll')?.addEventListener('click', async () => {
  try {
    await named();
    location.href = `/day/${(await post(`/api/day/${by('roll').dataset.day}/roll`)).day}`;
  } catch (fault) {
    by('said').textContent = fault.message;
  }
});
