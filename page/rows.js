// Rows and Changes: what passes the filters, as a table, as lines to copy, and as CSV.

const PIECE = 20000;   // how many rows are written before the page draws again

// The bit of a category of the watch list, or none.
function bitOf(id) {
    const at = WATCHED.findIndex(it => it.id === id);
    return at < 0 ? 0 : 1 << at;
}

// The rows of the matrix that pass the filters of an address. A filter is about a whole run, a whole
// grant, or an entry, and so says which entries pass: the mask of each grant.
class RowFilter {
    constructor(params, inside) {
        this.inside = inside;
        this.params = params;
        this.wanted = Object.fromEntries(FIELDS.map(field =>
            [field, params[field] ? ROWS.mask(field, params[field]) : null]));
        this.searched = params.q ? Object.fromEntries(FIELDS.map(field =>
            [field, ROWS.mask(field, params.q)])) : null;
        this.bit = bitOf(params.watch);
        this.masks = new Map();
    }

    select() {
        const {inside, params, wanted} = this;
        const {namespace} = ROWS;
        if (inside && !params.own) {
            return EVERYWHERE.joined(ALL.runs, place => inside.mask[place],
                (run, grant, isEverywhere) => this.maskOf(run, grant, isEverywhere));
        }
        const isOut = (run, grant) => wanted.namespace && !wanted.namespace[namespace[run]]
            || inside && EVERYWHERE.isByCluster(grant);
        return new Selection(ROWS, ALL.runs, (run, grant) => isOut(run, grant) ? null
            : this.maskOf(run, grant, false));
    }

    maskOf(run, grant, isEverywhere) {
        const {who, binding} = this.wanted;
        if (who && !who[ROWS.who[run]] || binding && !binding[ROWS.binding[grant]]) {
            return null;
        }
        const place = isEverywhere ? this.inside.place : ROWS.namespace[run];
        const base = this.params.watch ? WATCH.maskOf(this.bit, ROWS.who[run], place, isEverywhere)
            : isEverywhere ? EVERYWHERE.mask : EVERYWHERE.any;
        const isSought = this.searched && !this.isFound(run, grant);
        if (!this.masks.has(base)) {
            this.masks.set(base, [false, true].map(is => this.narrowed(base, is)));
        }
        return this.masks.get(base)[isSought ? 1 : 0]();
    }

    // Whether a run or a grant has what is searched in any field.
    isFound(run, grant) {
        const {who, namespace, binding} = this.searched;
        return who[ROWS.who[run]] || namespace[ROWS.namespace[run]] || binding[ROWS.binding[grant]];
    }

    // A mask less what the filters of an entry's fields leave out, made once it is needed.
    narrowed(base, isSought) {
        const fields = ENTRY_FIELDS.filter(field => this.wanted[field]);
        const wants = entry => fields.every(field =>
            this.wanted[field][ROWS.entries[field][entry]])
            && (!isSought || ENTRY_FIELDS.some(field =>
                this.searched[field][ROWS.entries[field][entry]]));
        let mask = fields.length || isSought ? null : base;
        return () => mask ||= base.and(wants);
    }
}

class RowsView {
    constructor(rows, title, name, explanation) {
        this.rows = rows;
        this.name = name;
        this.shown = [];
        const heads = rows.fields.map(field =>
            make('th', {scope: 'col'}, make('span', {}, HEADS[field]), this.filter(field)));
        this.sheet = new Sheet(title, heads, at => this.line(this.shown.at(at)), 'rows ' + name);
        this.summary = muted();
        this.everywhere = everywhereSwitch();
        this.watch = make('select', {'aria-label': 'Only rows of the watch list',
            'data-param': 'watch',
            change: event => change({watch: event.target.value})},
            make('option', {value: ''}, 'watched or not'),
            WATCHED.map(({id, title: it}) => make('option', {value: id}, it)));
        this.progress = muted();
        this.stop = make('button', {type: 'button', hidden: true,
            click: () => { this.writing = null; }}, 'Stop');
        this.element = make('div', {class: 'view'},
            make('div', {class: 'tools'}, make('h2', {}, title),
                filterInput('Filter by any field', 'q', 'any field'),
                rows === ROWS ? [this.watch, this.everywhere] : [], this.summary,
                make('button', {type: 'button', click: () => this.copy()}, 'Copy as lines'),
                make('button', {type: 'button', click: () => this.save()}, 'Save as CSV'),
                make('button', {type: 'button', click: () => go(name, {})}, 'Clear filters'),
                this.progress, this.stop),
            make('p', {class: 'why'}, explanation), this.sheet.element);
    }

    filter(field) {
        if (field !== 'change') {
            return filterInput('Filter ' + HEADS[field], field, 'contains');
        }
        return make('select', {'aria-label': 'Filter changes', 'data-param': field,
            change: event => change({change: event.target.value})},
            ['', 'gained', 'lost'].map(value => make('option', {value}, value || 'both')));
    }

    update(params) {
        fill(this.element, params);
        const namespace = this.rows === ROWS ? insideOf(params.namespace) : null;
        this.everywhere.hidden = !namespace;
        this.everywhere.firstChild.checked = !params.own;
        this.isJoined = namespace !== null && !params.own;
        this.shown = this.rows === ROWS ? new RowFilter(params, namespace).select()
            : this.rows.matching(params);
        const joined = this.isJoined ? this.shown.countOf(run => EVERYWHERE.isInCluster(run)) : 0;
        const own = this.shown.length - joined;
        this.summary.textContent = (own === this.rows.length ? counted(own, 'row')
            : `${figure(own)} of ${counted(this.rows.length, 'row')}`)
            + (joined ? ` and ${figure(joined)} of the whole cluster that hold there too` : '')
            + (params.watch && !bitOf(params.watch)
                ? `: the watch list has no ${lineOf(params.watch)}` : '')
            + (namespace && params.namespace.startsWith('=') && isStrange(params.namespace.slice(1))
                ? `: this page has no namespace ${placeText(params.namespace.slice(1))}` : '');
        this.sheet.show(this.shown.length);
    }

    line(row) {
        return this.rows.fields.map(field => {
            const word = this.rows.word(row, field);
            const isEverywhere = field === 'namespace' && this.isJoined && EVERYWHERE.holds(row);
            return make('td', {title: lineOf(field === 'change' ? CHANGES[word] : textOf(word))},
                isEverywhere ? muted('everywhere') : fieldNodes(word, field));
        });
    }

    // A row for a spreadsheet: an empty field is an empty cell.
    csvLine(row) {
        return csvRow(this.rows.fields.map(field => {
            const word = this.rows.word(row, field);
            return field === 'change' ? CHANGES[word] : word === '-' ? '' : word;
        }));
    }

    // The rows that are shown as texts, of many rows each. Where there are more, the page draws
    // between them, tells how far it is, and can be stopped: then there are none.
    async pieces(textOfRow) {
        const {shown} = this;
        const writing = this.writing = {};
        const found = [];
        let piece = [];
        let count = 0;
        for (const row of shown) {
            piece.push(textOfRow(row));
            count++;
            if (piece.length === PIECE && count < shown.length) {
                found.push(piece.join(''));
                piece = [];
                this.tell(`${figure(count)} of ${counted(shown.length, 'row')}`);
                await new Promise(done => setTimeout(done));
                if (this.writing !== writing) {
                    this.tell('');
                    throw new Stopped();
                }
            }
        }
        this.tell('');
        return [...found, piece.join('')];
    }

    tell(text) {
        this.progress.textContent = text;
        this.stop.hidden = !text;
    }

    copy() {
        const count = this.shown.length;
        const text = this.pieces(row => this.rows.line(row) + '\n').then(found => found.join(''));
        writeToClipboard(text, count > PIECE).then(() => say(`${counted(count, 'row')} copied`),
            () => text.then(() => say('This browser lets no page copy here: save the rows instead'),
                fault => say(fault instanceof Stopped ? 'Stopped: no row is copied'
                    : 'These rows are too many to copy: save them instead')));
    }

    // (The mark at the beginning is for spreadsheets that know UTF-8 by it alone.)
    async save() {
        const count = this.shown.length;
        try {
            const heads = csvRow(this.rows.fields.map(field => HEADS[field]));
            const found = await this.pieces(row => this.csvLine(row));
            const address = URL.createObjectURL(new Blob(['\ufeff', heads, ...found],
                {type: 'text/csv'}));
            make('a', {href: address, download: this.name + '.csv'}).click();
            setTimeout(() => URL.revokeObjectURL(address), 60000);
            say(`${counted(count, 'row')} saved`);
        } catch (fault) {
            say(fault instanceof Stopped ? 'Stopped: no row is saved'
                : 'These rows are too many to save here');
        }
    }
}

class Stopped extends Error {}

// Writes a text to the clipboard, which a page may only begin to do while it is clicked: one that
// takes longer is promised.
async function writeToClipboard(text, isLong) {
    if (isLong && window.ClipboardItem) {
        const blob = text.then(it => new Blob([it], {type: 'text/plain'}));
        blob.catch(() => {});   // (whoever waits for the text says so)
        return navigator.clipboard.write([new ClipboardItem({'text/plain': blob})]);
    }
    return navigator.clipboard.writeText(await text);
}

function csvRow(cells) {
    return cells.map(csvCell).join(',') + '\r\n';
}

// A cell of CSV. One that a spreadsheet would take for a formula begins with an apostrophe. A semicolon is
// an escape of the field, since some take it for the end of a cell, in spite of quotes.
function csvCell(text) {
    return '"' + (/^[=+@\uff1d\uff0b\uff20\uff0d-]/.test(text) ? "'" : '')
        + text.replaceAll('"', '""').replaceAll(';', '\\x3b') + '"';
}

// Shows or hides what holds everywhere, where a namespace is looked at.
function everywhereSwitch() {
    return make('label', {}, make('input', {type: 'checkbox',
        change: event => change({own: event.target.checked ? '' : '1'})}),
    ' also what holds everywhere');
}

// The namespaces that a filter wants, unless it wants the whole cluster or none: for each whether it
// does, and the place of the one after =. Where that isn't on the page, only what holds everywhere
// holds in it.
function insideOf(filter) {
    if (!filter) {
        return null;
    }
    const mask = ROWS.mask('namespace', filter);
    const isExact = filter.startsWith('=') && filter !== '=-';
    return mask[EVERYWHERE.cluster] || !isExact && !mask.includes(1) ? null
        : {mask, place: isExact ? ROWS.words.namespace.indexOf(filter.slice(1)) : -1};
}
