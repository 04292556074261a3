// The demand test of plain EDF for a demand file, with a late job if there can be one.
import { bad, byId, good, made, took } from './elements.js';
import { refuse } from './refusal.js';
import { page } from './shared.js';
import { MOST_TEXT } from './texts.js';

const DEMAND_HINT = 'The demand in a length of L ticks is the most ticks that jobs need which are released and due within L ticks. It may not exceed L.';

export async function showDemand(ask) {
    const { demands } = page.editors;
    const answer = await ask('demand', { demands: demands.source() });
    demands.unmark();
    if (answer.exit !== 0 && answer.exit !== 10) {
        refuse('demanded', answer.text, demands);
        return;
    }
    const [first, ...rest] = answer.text.split('\n');
    const card = (answer.exit === 0 ? good : bad)(made('strong', {}, first), took(answer));
    card.append(made('p', { className: 'hint' }, DEMAND_HINT));
    byId('demanded').replaceChildren(card);
    if (rest.length === 0) return;
    card.append(made('p', {}, 'A run in which a job is late:'));
    byId('demanded').append(made('pre', { tabIndex: 0 }, rest.join('\n').slice(0, MOST_TEXT)));
}
