// A block that was copied from a spreadsheet.

/** Its rows of cells; nothing for a text that is no block, which the cell takes as it is. */
export function block_of(text) {
  const bare = text.replace(/\r?\n$/, '');
  return /[\t\n]/.test(bare) ? cells_of(bare) : null;
}

/** The cells of a block. One with a tab, a line's end or a quote stands between quotes, its own doubled; its lines become one. */
function cells_of(text) {
  const rows = [[]];
  for (const [, quoted, plain, end] of text.matchAll(/(?:"((?:[^"]|"")*)"(?=[\t\r\n]|$)|([^\t\n]*?))(\t|\r?\n|$)/g)) {
    rows.at(-1).push((quoted === undefined ? plain : quoted.replaceAll('""', '"').replace(/\s*\r?\n\s*/g, ' ')).trim());
    if (end === '') break;
    if (end !== '\t') rows.push([]);
  }
  return rows;
}

// The heads of a line-up: a row for each movement has a direction, one for each call has times or a stay.
const HEADS = [['name', 'ship', 'vessel'], ['direction', 'arrives', 'sails', 'loads']];

/** Columns, rows and origins of a sheet with a block laid on it from a cell on. */
export function laid(block, sheet, top, left) {
  const head = block[0].map((one) => one.trim().toLowerCase());
  return HEADS.every((some) => head.some((one) => some.includes(one))) ? replaced(head, block.slice(1), sheet) : covered(block, sheet, top, left);
}

/** The block is the whole table, its columns in any order; a ship of the same name stays the same ship of the instance. */
function replaced(head, lines, sheet) {
  const name = sheet.place('name'), named = head.findIndex((one) => HEADS[0].includes(one));
  const origin = new Map(sheet.rows.map((row, place) => [row[name], sheet.origins[place]]));
  const rows = lines.map((line) => head.map((_, place) => (line[place] ?? '').trim()));
  return {columns: head, rows, origins: rows.map((row) => origin.get(row[named]) ?? -1)};
}

function covered(block, {columns, rows, origins}, top, left) {
  const found = rows.map((row) => [...row]), from = [...origins];
  block.forEach((line, down) => {
    while (found.length <= top + down) { found.push(columns.map(() => '')); from.push(-1); }
    line.forEach((value, right) => { if (left + right < columns.length) found[top + down][left + right] = value.trim(); });
  });
  return {columns, rows: found, origins: from};
}
