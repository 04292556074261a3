// The tabs of the page: which one is shown, and choosing another by a click or a key.
import { byId } from './elements.js';

export const tabNow = () => document.querySelector('main').dataset.tab;

// Shows the sections of a tab, and marks the tab as chosen.
export function showTab(tab) {
    document.querySelector('main').dataset.tab = tab;
    for (const section of document.querySelectorAll('[data-for]')) section.hidden = !section.dataset.for.split(' ').includes(tab);
    for (const one of document.querySelectorAll('[role=tab]')) {
        const isChosen = one.id === `tab-${tab}`;
        one.setAttribute('aria-selected', String(isChosen));
        one.tabIndex = isChosen ? 0 : -1;
    }
}

export function focusTab(tab) {
    byId(`tab-${tab}`).focus();
}

// Calls `choose` with the tab that a visitor chooses.
export function listenToTabs(choose) {
    const tabs = [...document.querySelectorAll('[role=tab]')].map((one) => one.id.slice('tab-'.length));
    tabs.forEach((tab, index) => {
        byId(`tab-${tab}`).addEventListener('click', () => choose(tab));
        byId(`tab-${tab}`).addEventListener('keydown', (event) => {
            const next = { ArrowRight: index + 1, ArrowLeft: index - 1 + tabs.length, Home: 0, End: tabs.length - 1 }[event.key];
            if (next === undefined) return;
            event.preventDefault();
            focusTab(tabs[next % tabs.length]);
            choose(tabs[next % tabs.length]);
        });
    });
}
