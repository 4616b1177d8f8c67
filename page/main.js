// The address after # says what is shown: a view and its parameters.

// The views of a page: each with its title, how many lines it has, and how it is made.
function viewsOf() {
    const views = {
        who: ['Who', PRINCIPALS.length, () => new WhoView()],
        what: ['What', undefined, () => new WhatView()],
        watch: ['Watch list', undefined, () => new WatchView()],
        rows: ['Rows', ROWS.length, () => new RowsView(ROWS, 'Rows', 'rows', ABOUT_ROWS)],
    };
    const linesIn = answers => answers.reduce((count, {length}) => count + length, 0);
    if (IS_ABOUT_WHO) {
        views.paths = ['Paths', linesIn(PATHS), () => new PathsView()];
    }
    if (REQUESTS.length) {
        views.requests = ['Who can indirectly', linesIn(REQUESTS), () => new RequestsView()];
    }
    if (PAGE.findings) {
        views.findings = ['Findings', PAGE.findings.length, () => new FindingsView()];
    }
    if (DIFF) {
        views.changes = ['Changes', DIFF.length,
            () => new RowsView(DIFF, 'Changes', 'changes', ABOUT_CHANGES)];
    }
    return views;
}

const ABOUT_ROWS = 'A filter keeps the rows whose field contains its text; with = before the text, the '
    + 'rows whose field is exactly that: =- is the empty field, which as a namespace means the whole '
    + 'cluster, and as an API group the core group. A filter of namespaces also shows what holds '
    + 'everywhere: rows of the whole cluster whose type has namespaces. The binding is the first that '
    + 'grants, unless the matrix was made with --every.';
const ABOUT_CHANGES = 'Gained is what is allowed now and wasn’t before; lost is what was allowed before '
    + 'and isn’t now. The binding is the first one that grants it, or granted it.';
let VIEWS;
const TITLE = document.title;
const built = {};
let current = '';

function address() {
    const [view, query = ''] = location.hash.slice(1).split(/\?(.*)/s);
    const first = PATHS.length ? 'paths' : 'who';
    return [Object.hasOwn(VIEWS, view) || view === 'find' ? view : first,
        Object.fromEntries(new URLSearchParams(query))];
}

function go(view, params) {
    location.hash = link(view, params);
}

// Changes some parameters of the view that is shown, in place: the way back doesn't lead through
// each letter typed.
function change(some) {
    const [view, params] = address();
    history.replaceState(null, '', link(view, {...params, ...some}));
    render();
}

function say(text) {
    const said = document.getElementById('said');
    said.textContent = text;
    said.classList.add('is-told');
    setTimeout(() => said.classList.remove('is-told'), 4000);
}

function render() {
    const [view, params] = address();
    const main = document.getElementById('main');
    if (view !== 'what' || !params.cell) {
        document.getElementById('cell').close();
    }
    built[view] ||= view === 'find' ? new FindView() : VIEWS[view][2]();
    if (view !== current) {
        main.replaceChildren(built[view].element);
        main.className = built[view].element.classList.contains('text') ? 'scrolls' : '';
        main.scrollTop = 0;
        current = view;
        for (const it of document.querySelectorAll('#views a')) {
            it.setAttribute('aria-current', it.dataset.view === view ? 'page' : 'false');
        }
    }
    built[view].update(params);
    document.title = [placeOfTitle(params.ns), view === 'find' ? 'Found' : VIEWS[view][0], TITLE]
        .filter(part => part).join(' · ');
    const wanted = document.getElementById('wanted');
    if (view !== 'find' && document.activeElement !== wanted) {
        wanted.value = '';
    }
}

function placeOfTitle(ns) {
    const [view, {who}] = address();
    return [(view === 'who' || view === 'paths') && who ? lineOf(textOf(who).replace(/^[ug]:/, '')) : '',
        ns ? placeText(ns) : ''].filter(part => part).join(' in ');
}

function begin() {
    takeRows(PAGE);
    takePaths(PAGE);
    VIEWS = viewsOf();
    document.getElementById('facts').textContent = [counted(ROWS.length, 'row'),
        counted(PRINCIPALS.length, 'principal'),
        counted(ROWS.words.namespace.filter(word => word !== '-').length, 'namespace')
            + ' with rows of their own',
        counted(ROWS.words.binding.length, 'binding') + ' in these rows'].join(' · ');
    document.getElementById('views').append(...Object.entries(VIEWS)
        .map(([view, [title, count]]) => make('li', {},
            make('a', {href: link(view), 'data-view': view}, title, count === undefined ? ''
                : [' ', make('small', {}, figure(count))]))));
    showAbout();
    showNotices();
    listen();
    render();
}

// The cluster, its server and when it was read, as far as the export says it.
function showAbout() {
    const {context, server, version, time} = PAGE.about;
    const facts = [['cluster ', context], ['server ', server], ['Kubernetes ', version],
        ['read ', time]].filter(([, value]) => value);
    const about = document.getElementById('about');
    about.hidden = !facts.length;
    about.append(...facts.flatMap(([name, value], at) =>
        [at ? ' · ' : '', name, make('bdi', {}, nodesOf(value))]));
}

// What the rows lack, and what a reader has to know before they trust them.
function showNotices() {
    const {whole, notices, about: {only}} = PAGE;
    const texts = [...whole ? []
        : ['This is a part of the matrix: --limit left out the rows after the last one here.'],
    ...only === undefined ? [] : [`The export has the namespace ${only} alone: what roles of other `
        + 'namespaces allow isn’t on this page.'], ...notices];
    const notice = document.getElementById('notice');
    notice.hidden = !texts.length;
    notice.append(...texts.map(text => make('p', {class: 'notice'}, nodesOf(text, Infinity))));
}

function listen() {
    const wanted = document.getElementById('wanted');
    wanted.addEventListener('input', () => {
        if (address()[0] === 'find') {
            change({q: wanted.value});
        } else {
            go('find', {q: wanted.value});
        }
    });
    document.getElementById('search').addEventListener('submit', event => event.preventDefault());
    document.getElementById('cell').addEventListener('close', () => {
        if (address()[0] === 'what' && address()[1].cell) {
            change({cell: ''});
        }
    });
    window.addEventListener('hashchange', render);
    window.addEventListener('keydown', event => {
        const isTyping = /^(INPUT|SELECT|TEXTAREA)$/.test(document.activeElement.tagName);
        if (event.key === '/' && !isTyping && !event.ctrlKey && !event.metaKey && !event.altKey) {
            event.preventDefault();
            wanted.focus();
        }
    });
}

// A packed page takes a moment, in which its main part is busy.
function openPage() {
    const main = document.getElementById('main');
    if (PAGE.packed === undefined) {
        begin();
    } else if (!window.DecompressionStream) {
        main.append(make('p', {class: 'notice'}, 'This browser can’t unpack the page. Open it in a '
            + 'newer one, or make it with rbacaudit-page --plain.'));
    } else {
        main.setAttribute('aria-busy', 'true');
        document.getElementById('facts').textContent = 'Opening…';
        unpack().then(begin).finally(() => main.removeAttribute('aria-busy'));
    }
}

openPage();
