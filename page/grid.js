// What: principals against types, in a namespace or in the whole cluster; a cell has its verbs as
// letters.

const KEPT_PRINCIPALS = 200;   // whose rows are kept, once drawn

class WhatView {
    constructor() {
        this.principals = [];
        this.types = [];
        this.cells = new Map();
        this.first = ROWS.words.namespace.includes('-') ? ['-'] : [];
        this.places = namespacesOf();
        this.everywhere = everywhereSwitch();
        this.summary = muted();
        this.grid = new Grid('Verbs of each principal on each type',
            make('th', {scope: 'col', class: 'corner'}, 'Principal'),
            column => this.typeHead(this.types[column]), at => this.side(this.principals[at]),
            (at, column) => this.cell(this.principals[at], this.types[column]));
        this.element = make('div', {class: 'view'},
            make('div', {class: 'tools'}, make('h2', {}, 'What they may do in'),
                placeChoice(this.first.map(word => [word, placeText(word)])),
                filterInput('Filter principals', 'who', 'principals'),
                filterInput('Filter types', 'type', 'types'), this.everywhere, this.summary),
            legend(), this.grid.element);
    }

    update(params) {
        const namespace = params.ns || this.first[0] || this.places[0];
        fill(this.element, {...params, ns: namespace});
        this.everywhere.hidden = namespace === '-';
        this.everywhere.firstChild.checked = !params.own;
        this.namespace = namespace;
        this.params = params;
        const shown = JSON.stringify([namespace, params.who, params.type, params.own]);
        if (shown !== this.shown) {
            this.shown = shown;
            this.gather(namespace, params);
            this.summary.textContent = `${counted(this.principals.length, 'principal')}, `
                + `${counted(this.types.length, 'type')}`;
            this.grid.showGrid(this.principals.length, this.types.length);
        } else {
            this.grid.redraw();
        }
        showCell(params.cell, namespace);
    }

    // What is shown of the rows of the namespace: principals and types.
    gather(namespace, params) {
        const wantsWho = ROWS.mask('who', params.who || '');
        const wanted = (params.type || '').toLowerCase();
        const isWanted = ROWS.types.map(({group, resource}) =>
            typeOf(group, resource).toLowerCase().includes(wanted));
        const passes = entry => isWanted[ROWS.type[entry]];
        const [all, everywhere] = [EVERYWHERE.any, EVERYWHERE.mask].map(mask => mask.and(passes));
        const isOwn = grant => !params.own || namespace === '-' || !EVERYWHERE.isByCluster(grant);
        this.selection = namespace === undefined ? new Selection(ROWS, [])
            : selectIn(namespace, (run, grant, isEverywhere) => !wantsWho[ROWS.who[run]]
                || !isOwn(grant) ? null : isEverywhere ? everywhere : all);
        this.cells = new Map();
        this.types = [...this.selection.types()].map(type => ROWS.types[type]).sort(byType);
        this.runs = grouped(this.selection.runs, run => ROWS.who[run]);
        this.principals = [...this.runs.keys()];
    }

    // The rows of a principal about a type.
    rowsOf(who, type) {
        if (!this.cells.has(who)) {
            if (this.cells.size > KEPT_PRINCIPALS) {
                this.cells.clear();
            }
            const rows = this.runs.get(who).flatMap(run => this.selection.rowsOf(run));
            this.cells.set(who, grouped(rows, row => ROWS.typeOf(row)));
        }
        return this.cells.get(who).get(type.key);
    }

    typeHead(type) {
        const title = lineOf(typeOf(type.group, type.resource));
        return make('th', {scope: 'col', class: 'type', title},
            make('div', {}, typeNodes(type.group, type.resource)));
    }

    side(who) {
        const word = ROWS.words.who[who];
        return make('th', {scope: 'row', title: lineOf(textOf(word))},
            anchor('who', {who: word}, principalNodes(word)));
    }

    cell(who, type) {
        const rows = this.rowsOf(who, type);
        if (!rows) {
            return make('td');
        }
        const verbsOf = test => new Set(rows.filter(test).map(row => ROWS.word(row, 'verb')));
        const verbs = verbsOf(() => true);
        const plain = verbsOf(row => ROWS.word(row, 'name') === '-');
        const own = verbsOf(row => this.namespace === '-' || !EVERYWHERE.follows(row));
        const named = [...verbs].every(verb => !plain.has(verb)) ? ', some objects only' : '';
        const where = own.size ? '' : ', everywhere';
        const address = {...this.params, ns: this.namespace,
            cell: [ROWS.words.who[who], type.group, type.resource].join('\t')};
        return make('td', {}, make('a', {href: link('what', address),
            'aria-label': [...verbs].map(textOf).map(lineOf).join(', ') + named + where},
            lettersOf(verbs, plain, own)));
    }
}

// The verbs' letters, each in its place. One that counts for some object names only is marked, and
// one that holds everywhere.
function lettersOf(verbs, plain, own) {
    return [...LETTERS.map(([, letter]) => letter), '·'].map((letter, at) => {
        const held = [...verbs].filter(verb => letterAt(verb) === at);
        const marks = [held.every(verb => !plain.has(verb)) ? ' named' : '',
            held.every(verb => !own.has(verb)) ? ' everywhere' : ''];
        return held.length === 0 ? ' '
            : make('span', {class: classOf(held[0]) + marks.join('')}, letter);
    });
}

function legend() {
    return make('p', {class: 'why legend'},
        LETTERS.map(([verb, letter]) => [make('b', {class: classOf(verb)}, letter), ` ${verb} `]),
        make('b', {class: 'other'}, '·'), ' any other verb  ',
        make('b', {class: 'read named'}, 'g'),
        ' for some object names only ', make('b', {class: 'read everywhere'}, 'g'),
        ' everywhere, by a ClusterRoleBinding. Click a cell for its rows and bindings.');
}

// ---- one cell

function showCell(cell, namespace) {
    const dialog = document.getElementById('cell');
    const [who, group, resource] = (cell || '').split('\t');
    if (resource === undefined) {
        dialog.close();
        return;
    }
    const filters = {who: '=' + who, namespace: '=' + namespace, group: '=' + group,
        resource: '=' + resource};
    const fields = ['verb', 'name', 'binding'];
    const place = ROWS.words.who.indexOf(who);
    const type = ROWS.types.findIndex(it => it.group === group && it.resource === resource);
    const [any, everywhere] = [EVERYWHERE.any, EVERYWHERE.mask].map(mask =>
        mask.and(entry => ROWS.type[entry] === type));
    const rows = [...selectIn(namespace, (run, _, isEverywhere) =>
        ROWS.who[run] !== place ? null : isEverywhere ? everywhere : any)];
    const isEverywhere = row => namespace !== '-' && EVERYWHERE.follows(row);
    dialog.replaceChildren(
        make('h2', {id: 'cell-title'}, typeNodes(group, resource)),
        make('p', {}, principalNodes(who), muted(' in '), scopeOf(namespace).isAll
            ? fieldNodes(namespace, 'namespace') : scopeOf(namespace).titleNodes()),
        ...plainTable('Rows', fields.map(field => HEADS[field]), rows,
            row => fields.map(field => [fieldNodes(ROWS.word(row, field), field),
                field === 'binding' && isEverywhere(row) ? muted(' everywhere') : []])),
        make('p', {class: 'tools'}, anchor('rows', filters, 'These rows'),
            anchor('who', {who}, 'All that they have'),
            make('button', {type: 'button', click: () => dialog.close()}, 'Close')));
    if (!dialog.open) {
        dialog.showModal();
    }
}
