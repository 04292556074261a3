// The link to the files that are here, for a visitor to copy.
import { byId, grouped } from './elements.js';
import { fragmentOf, MOST_LINK } from './link.js';
import { page } from './shared.js';
import { tabNow } from './tabs.js';

// The files and fields that the link of each tab holds, by their ids.
const LINKED = { schedule: ['tasks', 'work', 'ticks'], judge: ['tasks', 'trace', 'scale', 'tick'], fit: ['tasks', 'processors'], demand: ['demands'] };

export function showLink() {
    const state = { tab: tabNow() };
    const ids = LINKED[state.tab];
    const isLarge = ids.some((id) => page.editors[id]?.isLarge());
    for (const id of ids) state[id] = page.editors[id]?.text() ?? byId(id).value;
    const fragment = isLarge ? null : fragmentOf(state);
    byId('link-part').hidden = false;
    byId('link-text').value = fragment === null ? `A link holds at most ${grouped(MOST_LINK)} bytes of files.` : `${location.href.split('#')[0]}${fragment}`;
    byId('link-text').focus();
    byId('link-text').select();
}

export function hideLink() {
    byId('link-part').hidden = true;
}
