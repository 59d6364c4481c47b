// What the members of a port are called in its form, in which units, and how their values are written as text.

export const FIELDS = {
  version: ['version', ''],
  start: ['slot 0 begins', 'as 2027-03-14 03:40, the port’s clock'],
  slots: ['slots', '1 to 512, in which ships sail'],
  slot_minutes: ['length of a slot', 'minutes'],
  heights: ['heights', 'least: the lesser at both ends of a slot; start: at its beginning'],
  fleet: ['tugs', 'the whole fleet, 0 to 1000'],
  turnaround: ['pause of tugs after a ship', 'slots, or hours and minutes as 0:40'],
  closed: ['port closed', 'as 12:00 to 13:00; | between two'],
  waypoints: ['Waypoints', 'depth in centimetres below chart datum'],
  sections: ['One-way sections of the channel', 'a name each'],
  classes: ['Classes of ships', 'a name each; the rows of the separation'],
  separation: ['Separation', 'slots from the class of the row to that of the column'],
  berths: ['Berths', 'clear: slots from a ship’s sailing until the next may come in'],
  routes: ['Routes', 'offsets in slots after the sailing, clearances in centimetres'],
  route: ['passes', ''],
  channel: ['sections', ''],
  after: ['Ships after others', 'gap in slots'],
  dates: ['dates are written', 'ymd as 2027-03-14, dmy as 14.03.2027, mdy as 03/14/2027'],
  tides: ['Printed lists', ''],
  feet: ['heights in feet', ''],
  one_clock: ['of one clock, whatever they look like', ''],
  outgoing: ['outgoing', ''],
  incoming: ['incoming', ''],
};

/** Members with few values. */
export const CHOICES = {heights: ['least', 'start'], dates: ['ymd', 'dmy', 'mdy']};

export const label = (member) => FIELDS[member]?.[0] ?? member;
export const unit = (member) => FIELDS[member]?.[1] ?? '';

/** Members that are texts in a port with names; where an instance has places and slots, these are numbers. */
const TEXTS = new Set(['name', 'start', 'heights', 'waypoint', 'section', 'from', 'to']);
const PLACES = new Set(['waypoint', 'section', 'from', 'to']);

/** The value that a text stands for. What is no number stays a text, so that the program refuses it where it wants a number. */
export function value_of(member, text, whole) {
  const bare = text.trim();
  if (TEXTS.has(member) && !(whole && PLACES.has(member))) return bare;
  return /^-?\d{1,15}$/.test(bare) ? Number(bare) : bare;
}

/** Closed times, `12:00 to 13:00 | 14:00 to 15:00`, as text, and back; a text of another form is kept as it is, to be refused. */
export const times_text = (times) => (Array.isArray(times) ? times.map((one) => `${one?.from ?? ''} to ${one?.to ?? ''}`).join(' | ') : String(times ?? ''));

export function times_of(text, whole) {
  if (!text.trim()) return [];
  return text.split('|').map((part) => {
    const [from, to, more] = part.split(/\s+to\s+/);
    return to === undefined || more !== undefined ? part.trim() : {from: value_of('from', from, whole), to: value_of('to', to, whole)};
  });
}

/** An empty value like another: what a new row begins with. */
export function blank(like) {
  if (Array.isArray(like)) return [];
  if (like !== null && typeof like === 'object') return Object.fromEntries(Object.entries(like).map(([name, one]) => [name, blank(one)]));
  return typeof like === 'number' ? 0 : '';
}

/** What a new row of an empty list begins with. */
export const FIRST = {
  waypoints: {name: '', depth: 0}, sections: '', classes: '', berths: {name: '', clear: 1}, closed: {from: '', to: ''},
  route: {waypoint: '', offset: 0, clearance: 0}, channel: {section: '', enter: 0, leave: 1}, after: {first: 0, second: 1, gap: 0},
  routes: {name: '', route: [], channel: []},
};
export const PAIR = {outgoing: 0, incoming: 1, clear: 1};
