// Who is at the board: asked once, then told with what is done.
import {by, post} from './api.js';

/** The name of the person here; asks for it where it isn't known yet. Ends with an error where nobody says it. */
export async function named(again = false) {
  const meta = document.querySelector('meta[name="board-who"]'), dialog = by('who-dialog');
  if (meta.content && !again) return meta.content;
  const field = by('who-name');
  by('who-said').textContent = '';
  field.value = meta.content;
  dialog.showModal();
  field.focus();
  await new Promise((done, failed) => {
    by('who-form').onsubmit = async (event) => {
      event.preventDefault();
      try {
        meta.content = (await post('/api/name', {name: field.value})).name;
        dialog.close();
        done();
      } catch (fault) {
        by('who-said').textContent = fault.message;
      }
    };
    by('who-cancel').onclick = () => dialog.close();
    dialog.onclose = () => failed(new Error('Say who you are first: it stands beside what you do.'));
  });
  by('who').textContent = meta.content;
  return meta.content;
}

by('who')?.addEventListener('click', () => named(true).catch(() => {}));
