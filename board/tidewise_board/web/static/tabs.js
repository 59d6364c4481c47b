// Tabs: one panel is shown, the arrows change the tab.
import {by} from './api.js';

/** Makes a list of tabs work, and returns what chooses one by its id. */
export function tabs(list, chosen = () => {}) {
  const all = [...list.querySelectorAll('[role=tab]')];

  function choose(name) {
    for (const tab of all) {
      const on = tab.id === name;
      tab.setAttribute('aria-selected', on);
      tab.tabIndex = on ? 0 : -1;
      by(tab.getAttribute('aria-controls')).hidden = !on;
    }
    chosen(name);
    by(name).focus();
  }

  all.forEach((tab, place) => {
    tab.addEventListener('click', () => choose(tab.id));
    tab.addEventListener('keydown', (event) => {
      const to = {ArrowLeft: place - 1, ArrowRight: place + 1, Home: 0, End: all.length - 1}[event.key];
      if (to === undefined) return;
      event.preventDefault();
      choose(all[(to + all.length) % all.length].id);
    });
  });
  return choose;
}
