// Parts of a drawing.
const NAMES = 'http://www.w3.org/2000/svg';

/** An element of a drawing; what is in it is text or elements, never markup. */
export function shape(tag, props = {}, ...inside) {
  const one = document.createElementNS(NAMES, tag);
  for (const [name, value] of Object.entries(props)) one.setAttribute(name, value);
  one.append(...inside);
  return one;
}
