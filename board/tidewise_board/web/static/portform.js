// The port as a form: each member a field, a table or a list, drawn from the JSON behind it, which each change writes again.
import {make} from './api.js';
import {CHOICES, FIRST, PAIR, blank, label, times_of, times_text, unit, value_of} from './fields.js';

const TIMES = 'closed';
const MOST = 200;

export class PortForm {
  /** `text` is the field with the JSON; `whole` says that it is an instance, whose ships are those of the sheet. */
  constructor(host, text, whole, changed) {
    Object.assign(this, {host, text, whole, changed, fields: new Map(), told: []});
  }

  /** Draws the form of the JSON as it is now. */
  show() {
    this.fields.clear();
    try {
      this.port = JSON.parse(this.text.value);
      if (this.port === null || typeof this.port !== 'object' || Array.isArray(this.port)) throw new Error('it is no object');
    } catch (fault) {
      this.port = null;
      this.host.replaceChildren(make('p', {className: 'q'}, `The JSON has a fault, mend it there: ${fault.message}`));
      return;
    }
    try {
      this.draw();
    } catch {
      // What is told of the day says which member has another kind than the program wants.
      this.fields.clear();
      this.host.replaceChildren(make('p', {className: 'q'}, 'The JSON has members of another kind than a port: mend them there.'));
    }
    this.mark(this.told);
  }

  draw() {
    // A member that begins with # says nothing to the program.
    const members = Object.keys(this.port).filter((member) => member !== 'ships' && !member.startsWith('#'));
    const plain = members.filter((member) => typeof this.port[member] !== 'object' || member === TIMES);
    const rest = members.filter((member) => !plain.includes(member));
    this.host.replaceChildren(make('div', {className: 'fields'}, ...plain.map((member) => this.named(this.port, member, [member]))),
      ...rest.map((member) => this.group(this.port, member, [member])));
  }

  write() {
    this.text.value = JSON.stringify(this.port, null, 1);
    this.changed();
  }

  /** A field with its name and unit. */
  named(owner, member, path) {
    const input = this.input(owner, member, path);
    return make('label', {className: 'field'}, label(member), input, make('span', {className: 'm'}, unit(member)));
  }

  input(owner, key, path, named = typeof key === 'number' ? path.at(-2) : key) {
    const times = named === TIMES, member = typeof key === 'number' && typeof owner[key] === 'string' ? 'name' : named;
    if (CHOICES[member]) return this.choice(owner, member, path);
    if (typeof owner[key] === 'boolean') return this.tick(owner, key, path);
    const input = make('input', {value: times ? times_text(owner[key]) : String(owner[key] ?? ''), spellcheck: false, autocomplete: 'off'});
    if (times) input.classList.add('times'); else if (typeof owner[key] === 'number') input.classList.add('num');
    input.addEventListener('input', () => {
      owner[key] = times ? times_of(input.value, this.whole) : value_of(member, input.value, this.whole);
      this.write();
    });
    this.fields.set(path.join('.'), input);
    return input;
  }

  /** A field with few values; one that the JSON has and that isn't among them stays to be chosen. */
  choice(owner, member, path) {
    const select = make('select', {}, ...[...new Set([...CHOICES[member], String(owner[member])])].map((one) => make('option', {value: one}, one)));
    select.value = owner[member];
    select.addEventListener('change', () => { owner[member] = select.value; this.write(); });
    this.fields.set(path.join('.'), select);
    return select;
  }

  tick(owner, key, path) {
    const input = make('input', {type: 'checkbox', checked: owner[key]});
    input.addEventListener('change', () => { owner[key] = input.checked; this.write(); });
    this.fields.set(path.join('.'), input);
    return input;
  }

  group(owner, member, path) {
    const value = owner[member], group = make('fieldset', {}, make('legend', {}, label(member), make('span', {className: 'm'}, ` ${unit(member)}`)));
    if (!Array.isArray(value)) group.append(make('div', {className: 'fields'}, ...Object.keys(value).map((name) => this.named(value, name, [...path, name]))));
    else if (member === 'separation') group.append(this.matrix(value, path));
    else if (member === 'routes') group.append(...value.map((one, place) => this.route(value, one, place, [...path, place])), this.adder(value, member));
    else group.append(this.list(value, member, path), this.adder(value, member));
    return group;
  }

  /** A list: a row each, of its members or of one name. */
  list(items, member, path) {
    if (items.length > MOST) return make('p', {className: 'm'}, `${items.length} are too many for a form: they stand in the JSON`);
    const columns = [...new Set(items.flatMap((one) => (one !== null && typeof one === 'object' ? Object.keys(one) : [])))];
    const rows = items.map((one, place) => {
      const cells = columns.length ? columns.map((column) => this.cell(one, column, [...path, place, column], `${column} ${place} of ${label(member)}`))
        : [this.cell(items, place, [...path, place], `name ${place} of ${label(member)}`)];
      return make('tr', {}, ...cells, make('td', {className: 'x'}, this.remover(items, place, member)));
    });
    const head = columns.length && rows.length ? [make('thead', {}, make('tr', {}, ...columns.map((column) => make('th', {scope: 'col'}, column)), make('th', {})))] : [];
    return make('table', {className: 'small'}, make('caption', {className: 'unseen'}, label(member)), ...head, make('tbody', {}, ...rows));
  }

  cell(owner, key, path, name) {
    const input = this.input(owner, key, path);
    input.setAttribute('aria-label', name);
    return make('td', {}, input);
  }

  matrix(rows, path) {
    const names = this.port.classes ?? rows.map((_, place) => `class ${place}`);
    const line = (row, place) => make('tr', {}, make('th', {scope: 'row'}, names[place] ?? String(place)),
      ...row.map((_, column) => this.cell(row, column, [...path, place, column], `separation from ${names[place]} to ${names[column]}`)));
    return make('table', {className: 'small'}, make('caption', {className: 'unseen'}, label('separation')),
      make('thead', {}, make('tr', {}, make('th', {}), ...names.map((one) => make('th', {scope: 'col'}, String(one))))),
      make('tbody', {}, ...rows.map((row, place) => line(Array.isArray(row) ? row : [], place))));
  }

  route(all, one, place, path) {
    const parts = ['route', 'channel'].filter((part) => Array.isArray(one[part])).map((part) => make('div', {},
      make('span', {className: 'm'}, label(part)), this.list(one[part], part, [...path, part]), this.adder(one[part], part)));
    return make('fieldset', {className: 'inner'}, make('legend', {}, `Route ${one.name ?? place}`),
      make('div', {className: 'fields'}, this.named(one, 'name', [...path, 'name']), this.remover(all, place, 'routes')), ...parts);
  }

  adder(items, member) {
    const add = make('button', {type: 'button'}, `Add to ${label(member).toLowerCase()}`);
    const first = this.whole && member === 'berths' ? PAIR : FIRST[member] ?? '';
    add.addEventListener('click', () => { items.push(items.length ? blank(items.at(-1)) : structuredClone(first)); this.sized(member); this.redraw(); });
    return add;
  }

  remover(items, place, member) {
    const remove = make('button', {type: 'button', title: 'remove'}, '✕');
    const one = items[place], name = typeof one === 'string' ? one : one?.name;
    remove.setAttribute('aria-label', `remove ${name || place} of ${label(member)}`);
    remove.addEventListener('click', () => { items.splice(place, 1); this.sized(member, place); this.redraw(); });
    return remove;
  }

  /** A class more or less is a row and a column of the separation more or less. */
  sized(member, gone) {
    const rows = this.port.separation;
    if (member !== 'classes' || !Array.isArray(rows)) return;
    if (gone !== undefined) { rows.splice(gone, 1); for (const row of rows) row.splice(gone, 1); } else {
      for (const row of rows) row.push(1);
      rows.push(this.port.classes.map(() => 1));
    }
  }

  redraw() {
    const [top, path] = [this.host.scrollTop, [...this.fields].find(([, one]) => one === document.activeElement)?.[0]];
    this.write();
    this.show();
    this.host.scrollTop = top;
    (this.fields.get(path) ?? this.host).focus({preventScroll: true});
  }

  /** The field of a fault's place, as `waypoints.1.depth`, or of the nearest member around it. */
  field(place) {
    for (const words = (place ?? '').split('.'); words.length; words.pop()) {
      const found = this.fields.get(words.join('.')) ?? [...this.fields].find(([path]) => path.startsWith(`${words.join('.')}.`))?.[1];
      if (found) return found;
    }
    return null;
  }

  /** Marks the fields of faults of the port. */
  mark(told) {
    this.told = told;
    for (const input of this.fields.values()) { input.removeAttribute('aria-invalid'); input.title = ''; }
    for (const one of told) {
      const input = one.where === 'port' && !one.hint ? this.field(one.place) : null;
      if (!input) continue;
      input.setAttribute('aria-invalid', 'true');
      input.title = one.said;
    }
  }
}
