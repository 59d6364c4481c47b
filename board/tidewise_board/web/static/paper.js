// The print sheet: the picture fills what the table leaves of one page.
import {by} from './api.js';
import {shown} from './picture.js';

/** Paper is white: what the picture has for dark screens is left out. */
function light(sheets) {
  for (const sheet of sheets) for (let place = sheet.cssRules.length - 1; place >= 0; place--) if (/dark/.test(sheet.cssRules[place].conditionText ?? '')) sheet.deleteRule(place);
}

const host = document.querySelector('[data-picture]');
const picture = await shown(host, host.dataset.picture);
if (picture.svg) {
  light(picture.shadow.adoptedStyleSheets);
  // One page of paper: the drawing takes the height that is left, whatever its own is.
  Object.assign(picture.svg.style, {width: '100%', height: '100%', minWidth: '0', maxWidth: 'none', maxHeight: 'none'});
  picture.svg.setAttribute('preserveAspectRatio', 'xMidYMin meet');
}
by('print').addEventListener('click', () => print());
by('grey').addEventListener('click', () => by('grey').setAttribute('aria-pressed', String(by('paper').classList.toggle('grey'))));
document.body.dataset.ready = 'yes';
