// The rows of ships in the program's picture: where they are, and the drafts that they show.

// The frame of a row's slots in the picture: where it begins, and how wide it is.
export const LEFT = 172;
export const WIDE = 720;

/** Where a slot begins in a row whose frame spans so many slots. */
export const x_of = (span, slot) => LEFT + slot * WIDE / span;

/** The rows: the picture names a ship's number only in its texts, so it is read there. */
export function rows_of(svg) {
  const rows = [];
  for (const group of svg.querySelectorAll('g[role="listitem"]')) {
    const said = [...group.querySelectorAll(':scope>text.m')].map((one) => /^ship (\d+), (?:full|draft) (-?[\d.]+) m$/.exec(one.textContent)).find(Boolean);
    const frame = group.querySelector(':scope>svg[height="21"]');
    if (!said || !frame) continue;
    rows.push({ship: Number(said[1]), y: Number(frame.getAttribute('y')) - 3, full: Math.round(Number(said[2]) * 100),
      span: Number(frame.getAttribute('viewBox').split(' ')[2]), drafts: levels(frame.querySelector('path.dr')), group});
  }
  return rows;
}

/** The levels of a path of steps: `M{f} {g}`, then `V{level}H{k+1}` for each slot, then `V{g}z`. */
function levels(path) {
  const found = {}, text = path?.getAttribute('d') ?? '', start = /^M(\d+) (\d+)/.exec(text);
  if (!start) return found;
  let slot = Number(start[1]), level = Number(start[2]);
  const ground = level;
  for (const [, kind, number] of text.slice(start[0].length).matchAll(/([VH])(\d+)/g)) {
    if (kind === 'V') level = Number(number);
    else for (; slot < Number(number); slot++) if (level !== ground) found[slot] = level;
  }
  return found;
}
