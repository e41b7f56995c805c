// Tabs, by click and by arrow keys.
function showTab(tab, whole) {
    for (const it of whole.querySelectorAll('[role=tab]')) {
        const isShown = it === tab;
        it.setAttribute('aria-selected', isShown);
        it.tabIndex = isShown ? 0 : -1;
        document.getElementById(it.getAttribute('aria-controls')).hidden = !isShown;
    }
    whole.dataset.tab = tab.id;
}

export function tabs(whole, shown) {
    const all = [...whole.querySelectorAll('[role=tab]')];
    const show = tab => {
        showTab(tab, whole);
        shown(tab);
    };
    all.forEach((tab, i) => {
        tab.addEventListener('click', () => show(tab));
        tab.addEventListener('keydown', event => {
            const way = { ArrowRight: 1, ArrowLeft: -1 }[event.key];
            if (!way) return;
            const next = all[(i + way + all.length) % all.length];
            next.focus();
            show(next);
        });
    });
    showTab(all[0], whole);
}
