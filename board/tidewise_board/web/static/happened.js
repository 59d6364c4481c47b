// What happened: the form for an event, and the list of those that were told.
import {by, make, post} from './api.js';
import {named} from './who.js';

/** The form and the list over one plan; `now()` is the slot that it is, `shown(answer)` is called with each answer. */
export class Happened {
  constructor({plan, ships, timetable}, now, shown) {
    Object.assign(this, {plan, ships, timetable, now, shown});
    this.form = by('event');
    this.form.addEventListener('change', (event) => this.fields(event.target.name));
    this.form.addEventListener('submit', (event) => { event.preventDefault(); this.send(this.asked()); });
    this.fields('kind');
  }

  /** Shows the fields that this kind of event has; a ship's time begins with the one that she is planned for. */
  fields(changed) {
    const {kind, ship, slot, first, last} = this.form.elements;
    for (const one of this.form.querySelectorAll('[data-for]')) one.hidden = !one.dataset.for.split(',').includes(kind.value);
    if (kind.value === 'closed' && last.value === '') last.value = String(Math.min(last.options.length - 1, Number(first.value) + 4));
    const planned = this.timetable[this.ships.indexOf(ship.value)];
    if (changed === 'ship' || changed === 'kind') slot.value = String(kind.value === 'sailed' && planned < slot.options.length ? planned : this.now());
    if (changed === 'kind') first.value = String(this.now());
  }

  /** Takes a ship that was pointed at in the picture. */
  take(ship) {
    const {kind, ship: field} = this.form.elements;
    if (!['sailed', 'not before', 'stays', 'surveyed'].includes(kind.value)) kind.value = 'sailed';
    field.value = this.ships[ship];
    this.fields('ship');
    kind.focus();
  }

  asked() {
    const {kind, ship, count, where, slot, first, last, deep} = this.form.elements, number = (field) => Number(field.value);
    const end = last.value === '' ? null : number(last);
    return {kind: kind.value, ...{
      sailed: {ship: ship.value, slot: number(slot)}, 'not before': {ship: ship.value, slot: number(slot)}, stays: {ship: ship.value},
      surveyed: {ship: ship.value, deep: Math.round(100 * number(deep))},
      'tugs out': {count: number(count), first: number(first), last: end}, 'tugs back': {count: number(count), slot: number(slot)},
      closed: {where: where.value || null, first: number(first), last: end},
    }[kind.value]};
  }

  async send(event) {
    by('said').textContent = '';
    try {
      await named();
      this.list(await post(`/api/plan/${this.plan}/events`, {...event, now: this.now()}));
    } catch (fault) {
      by('said').textContent = fault.message;
    }
  }

  list(answer) {
    // Beside each event what it breaks, and not what was broken before it.
    const broken = (place) => answer.events[place].broken.filter((line) => !answer.events[place - 1]?.broken.includes(line));
    by('events').replaceChildren(...answer.events.map((one, place) => {
      const back = make('button', {type: 'button'}, 'Take back');
      back.setAttribute('aria-label', `take back: ${one.said}`);
      back.addEventListener('click', () => this.send({undo: one.id}));
      return make('li', {className: one.before ? 'known' : ''}, make('span', {}, one.said), back, ...(broken(place).length ? [make('span', {className: 'broken'}, `breaks: ${broken(place).join('; ')}`)] : []));
    }));
    by('broken').replaceChildren(...(answer.broken.length ? answer.broken.map((line) => make('li', {className: 'q'}, line)) : [make('li', {className: 'm'}, 'Nothing: the plan still holds.')]));
    by('noted').replaceChildren(...answer.noted.map((line) => make('li', {}, line)));
    this.shown(answer);
  }
}
