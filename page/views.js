// The views. Each has an element, which is made once, and `update`, which shows what the address
// after # says.

function link(view, params = {}) {
    const given = Object.entries(params).filter(([, value]) => value);
    return '#' + view + (given.length ? '?' + new URLSearchParams(given) : '');
}

function anchor(view, params, ...children) {
    return make('a', {href: link(view, params)}, children);
}

// A header cell, with its explanation.
function head(text, title, className) {
    return make('th', {scope: 'col', title, class: className}, text);
}

function cell(className, ...children) {
    return make('td', {class: className}, children);
}

// An input that writes one parameter into the address.
function filterInput(label, param, placeholder) {
    return make('input', {type: 'search', 'aria-label': label, placeholder, 'data-param': param,
        spellcheck: 'false', autocomplete: 'off',
        input: event => change({[param]: event.target.value})});
}

// Shows the parameters in the inputs of an element, but not over what somebody types.
function fill(element, params) {
    for (const input of element.querySelectorAll('[data-param]')) {
        const wanted = params[input.dataset.param] || '';
        if (input.type === 'checkbox') {
            input.checked = wanted !== '';
        } else {
            if (input.dataset.param === 'ns') {
                tellPlace(input, wanted);
            }
            if (input.value !== wanted) {
                input.value = wanted;
            }
        }
    }
}

// What of the watch list a principal has; everything comes first, and what they have only by name
// comes last.
function badges({watched, onlyNamed, word}, scope) {
    const held = WATCHED.filter((_, at) => watched >> at & 1);
    if (watched & EVERYTHING) {
        held.unshift(held.pop());
    }
    const named = WATCHED.filter((_, at) => onlyNamed >> at & 1);
    return [held.map(({id, title}) => {
        const href = link('rows', {who: '=' + word, watch: id,
            namespace: scope.isAll ? '' : '=' + scope.word});
        return [make('a', {href, class: 'badge', title}, id), ' '];
    }), named.map(({id, title}) => [make('a', {href: link('watch', {at: id, ns: scope.word}),
        class: 'badge part', title: title + ', only objects of certain names'},
    id + ' by name'), ' '])].flat();
}

function bindingLinks(places_) {
    const words = [...places_].map(place => ROWS.words.binding[place]);
    const shown = words.slice(0, 3).map(word => [anchor('rows', {binding: '=' + word},
        fieldNodes(word, 'binding')), ' ']);
    return words.length > 3 ? [shown, muted(`and ${words.length - 3} more`)] : shown;
}

// ---- the namespace that is looked at

const MOST_OPTIONS = 500;

// The namespaces of the page, in order. The last is any that has no rows of its own, where only that
// holds which holds everywhere.
function namespacesOf() {
    const words = ROWS.words.namespace.filter(word => word !== '-').sort(byText);
    return EVERYWHERE.isPlain || !EVERYWHERE.isAny ? words
        : [...words, OTHER];
}

function placeText(word) {
    return word === OTHER ? 'any other namespace' : lineOf(meaning(word, 'namespace'));
}

// Whether an address names a namespace that the page doesn't have.
function isStrange(word) {
    return Boolean(word) && word !== '-' && word !== OTHER && !ROWS.words.namespace.includes(word);
}

// What is said of a namespace that the page doesn't have.
function strangeText(word) {
    return isStrange(word)
        ? `This page has no namespace ${placeText(word)}: only what holds everywhere is shown. ` : '';
}

// Says so where a namespace isn't on the page; a list of them always has a choice that is what is shown.
function tellPlace(input, word) {
    input.parentNode.querySelector('.strange-place').textContent = strangeText(word);
    input.querySelector('.strange')?.remove();
    if (input.matches('select') && word && ![...input.options].some(({value}) => value === word)) {
        input.append(make('option', {value: word, class: 'strange'},
            placeText(word) + ' (not on this page)'));
    }
}

// Chooses what is looked at: `first` has the choices before the namespaces. Of many, it is a field to
// type a namespace into.
function placeChoice(first) {
    const words = namespacesOf();
    const told = make('span', {class: 'strange-place', role: 'status'});
    const attributes = {'aria-label': 'Namespace', 'data-param': 'ns',
        change: event => change({ns: event.target.value, cell: ''})};
    if (words.length > MOST_OPTIONS) {
        const list = make('datalist', {id: 'namespaces'});
        return [make('input', {type: 'search', list: 'namespaces', placeholder: 'namespace',
            ...attributes, input: event => list.replaceChildren(...words
                .filter(word => word.includes(event.target.value)).slice(0, 100)
                .map(word => make('option', {value: word})))}), list, told];
    }
    return [make('select', attributes, [...first, ...words.map(word => [word, placeText(word)])]
        .map(([value, text]) => make('option', {value}, text))), told];
}

// ---- Who

const WHO_COLUMNS = [
    {id: 'who', title: 'Principal', why: 'In the order of the matrix'},
    {id: 'permissions', title: 'Permissions', why: 'Requests that they have a row for. Rows of '
        + 'matrix --once have those of the whole cluster once, and not for each namespace',
        value: it => it.permissions},
    {id: 'cluster', title: 'Whole cluster', why: 'Those of them in the whole cluster',
        value: it => it.cluster},
    {id: 'namespaces', title: 'Namespaces', why: 'Namespaces in which they have any: all, where '
        + 'something of theirs holds everywhere',
        value: it => it.isEverywhere ? Infinity : it.namespaces},
    {id: 'bindings', title: 'Bindings', why: 'Bindings in their rows',
        value: it => it.bindings},
];

// The column of a parameter, by whose name the order is turned round if a dash stands before it.
function sortOf(sort = '') {
    const isTurned = sort.startsWith('-');
    return {by: WHO_COLUMNS.find(({id}) => id === sort.slice(isTurned ? 1 : 0)) || WHO_COLUMNS[0],
        isTurned};
}

class WhoView {
    constructor() {
        this.shown = [];
        this.sorts = WHO_COLUMNS.map(column => make('th',
            {scope: 'col', class: column.value ? 'number' : 'wide'},
            make('button', {type: 'button', title: column.why,
                click: () => this.sortBy(column)}, column.title)));
        this.sheet = new Sheet('Principals',
            [...this.sorts, head('Worth watching', 'As in the watch list', 'wide')],
            at => this.row(this.shown[at]), 'who');
        this.summary = muted();
        this.list = make('div', {class: 'view'},
            make('div', {class: 'tools'}, make('h2', {}, 'Who has what'),
                placeChoice([['', 'in all rows']]),
                filterInput('Filter principals', 'q', 'filter principals'), this.summary),
            this.sheet.element);
        this.detail = new PrincipalView();
        this.element = make('div', {class: 'view'});
    }

    update(params) {
        const isOne = Boolean(params.who);
        this.element.replaceChildren(isOne ? this.detail.element : this.list);
        if (isOne) {
            this.detail.update(params);
            return;
        }
        fill(this.list, params);
        const wants = wantedBy(params.q || '');
        this.scope = scopeOf(params.ns);
        this.shown = this.scope.principals.filter(it => wants(it.word, 'who'));
        const {by, isTurned} = sortOf(params.sort);
        if (by.value) {
            this.shown.sort((a, b) => by.value(b) === by.value(a) ? 0 : by.value(b) - by.value(a));
        }
        if (isTurned) {
            this.shown.reverse();
        }
        this.sorts.forEach((element, at) => element.setAttribute('aria-sort', WHO_COLUMNS[at] !== by
            ? 'none' : Boolean(by.value) === isTurned ? 'ascending' : 'descending'));
        this.summary.textContent = counted(this.shown.length, 'principal');
        this.sheet.show(this.shown.length);
    }

    // A second click on a column turns its order round.
    sortBy(column) {
        const {by, isTurned} = sortOf(address()[1].sort);
        change({sort: by === column && !isTurned ? '-' + column.id : column.id});
    }

    row(it) {
        const numbers = WHO_COLUMNS.slice(1).map(({value}) => value(it)).map(value =>
            cell('number', value === Infinity ? 'all' : value ? figure(value) : muted('–')));
        const name = make('th', {scope: 'row', title: lineOf(textOf(it.word))},
            anchor('who', {who: it.word, ns: this.scope.word}, principalNodes(it.word)));
        return [name, ...numbers, cell('', badges(it, this.scope))];
    }
}

// What one principal has: a line for each namespace and target, with its verbs and bindings.
class PrincipalView {
    constructor() {
        this.shown = [];
        this.sheet = new Sheet('What they have',
            [head('Namespace'), head('Resource or URL'), head('Object name'), head('Verbs'),
            head('Bindings')], at => this.line(this.shown[at]), 'principal');
        this.title = make('h2');
        this.summary = make('p', {class: 'muted'});
        this.watched = make('p', {class: 'badges'});
        this.whole = make('input', {type: 'checkbox', 'data-param': 'all',
            change: event => change({all: event.target.checked ? '1' : ''})});
        this.hidden = make('label', {}, this.whole, ' ', make('span'));
        this.links = make('span');
        this.element = make('div', {class: 'view'}, this.title, this.summary, this.watched,
            make('div', {class: 'tools'}, filterInput('Filter by namespace, resource or verb', 'q',
                'filter'), this.hidden, this.links),
            this.sheet.element);
    }

    update(params) {
        fill(this.element, params);
        this.scope = scopeOf(params.ns);
        const it = this.scope.principals.find(({word}) => word === params.who);
        this.title.replaceChildren(...principalNodes(params.who), ...this.scope.isAll ? []
            : [muted(' in '), ...this.scope.titleNodes()]);
        this.watched.replaceChildren(...it ? badges(it, this.scope).flat() : []);
        if (it?.who === undefined) {
            this.summary.textContent = strangeText(params.ns) + 'This page has no row for them'
                + (it ? '; the watch list has what they may do only by name.' : '.')
                + (isKey(params.who) ? '' : ' A principal is written u:NAME or g:NAME.');
            this.hidden.hidden = true;
            this.links.replaceChildren(...takesOver(params.who));
            this.shown = [];
            this.sheet.show(0);
            return;
        }
        this.summary.textContent = strangeText(params.ns) + this.counts(it);
        this.links.replaceChildren(anchor('rows', {who: '=' + it.word,
            namespace: this.scope.isAll ? '' : '=' + this.scope.word}, 'All rows'),
            ...takesOver(it.word));
        it.lines ||= linesOf(this.scope.rowsOf(it), row => this.scope.placeOf(row));
        this.show(it.lines, params);
    }

    counts(it) {
        const inside = figure(it.permissions - it.cluster);
        const parts = this.scope.isAll ? [figure(it.cluster) + ' in the whole cluster'
            + (it.isEverywhere ? ', and so in each namespace' : ''),
        it.namespaces ? inside + ' in ' + counted(it.namespaces, 'namespace') : '']
            : [figure(it.cluster) + ' that hold everywhere',
                inside + ' of this namespace alone'];
        return counted(it.permissions, 'permission') + ': ' + [...parts, 'from '
            + counted(it.bindings, 'binding')].filter(part => part).join(', ') + '.';
    }

    show(lines, params) {
        const whole = new Map(lines.filter(line => line.namespace === '-')
            .map(line => [line.target, line.verbs]));
        const isMore = line => line.namespace === '-'
            || [...line.bindings].some(place => !EVERYWHERE.byCluster[place])
            || ![...line.verbs].every(verb => whole.get(line.target)?.has(verb));
        const more = lines.filter(isMore);
        this.hidden.hidden = more.length === lines.length;
        this.hidden.lastChild.textContent = 'also what follows from the whole cluster: '
            + counted(lines.length - more.length, 'line');
        const wants = wantedBy(params.q || '');
        const isWanted = line => [...line.verbs].some(verb => wants(verb, 'verb'))
            || ['namespace', 'group', 'resource', 'name'].some(field => wants(line[field], field));
        this.shown = (params.all ? lines : more).filter(isWanted).flatMap(partsOf);
        this.sheet.show(this.shown.length);
    }

    line({namespace, group, resource, name, verbs, bindings, isFurther}) {
        const held = cell('', [...verbs].map(verb =>
            [make('span', {class: classOf(verb)}, nodesOf(textOf(verb))), ' ']));
        return isFurther ? [cell(), cell(), cell(), held, cell()]
            : [cell('', anchor('what', {ns: namespace}, this.scope.placeNodes(namespace))),
                cell('', typeNodes(group, resource)), cell('', fieldNodes(name, 'name')), held,
                cell('', bindingLinks(bindings))];
    }
}

const VERBS_FIT = 38;   // how many characters of verbs a cell has room for

// A line as the rows of a table that all its verbs need.
function partsOf(line) {
    const parts = [];
    let room = 0;
    for (const verb of line.verbs) {
        const width = lineOf(textOf(verb)).length + 1;
        if (!parts.length || width > room) {
            parts.push([]);
            room = VERBS_FIT;
        }
        parts.at(-1).push(verb);
        room -= width;
    }
    return parts.map((verbs, at) => ({...line, verbs, isFurther: at > 0}));
}

// Rows by where they count and target: the verbs and bindings of each. The whole cluster comes first,
// then namespaces by name.
function linesOf(rows, placeOf) {
    const fields = ['group', 'resource', 'name'];
    const groups = grouped(rows, row =>
        [placeOf(row), ...fields.map(field => ROWS.word(row, field))].join('\t'));
    const lines = [...groups].map(([key, found]) => {
        const [namespace, group, resource, name] = key.split('\t');
        return {namespace, group, resource, name, target: key.slice(namespace.length),
            verbs: new Set(found.map(row => ROWS.word(row, 'verb'))),
            bindings: new Set(found.map(row => ROWS.place(row, 'binding')))};
    });
    return lines.sort((a, b) => byNamespace(a.namespace, b.namespace) || byType(a, b));
}

// A type, with its group set back.
function typeNodes(group, resource) {
    return [make('bdi', {}, nodesOf(textOf(resource))),
        group === '-' ? [] : muted('.',
            make('bdi', {}, nodesOf(textOf(group))))];
}

// ---- Findings

const FINDINGS = {
    L1: 'The binding refers to a role that isn’t in the files, so it grants nothing, until '
        + 'somebody creates a role of that name. Check that all files were passed; then delete '
        + 'the binding, or correct its role.',
    L2: 'No binding refers to the role, neither directly nor through aggregation. Delete it if '
        + 'nobody is going to bind it.',
    L3: 'Another rule of the same role, the one whose number stands last, allows everything that '
        + 'this one does. Without the redundant rule the answer to every request stays the same.',
    L4: 'The rule allows bind or escalate on roles or cluster roles. With it, users can bind '
        + 'roles whose permissions they don’t have, or write such roles. Take it from everybody '
        + 'who isn’t an administrator.',
    L5: 'This service account in a ClusterRoleBinding has no namespace, so it names nobody. Add '
        + 'the namespace.',
    L6: 'The rules written in the aggregated role aren’t those that its selectors collect. '
        + 'rbacaudit ignores them, but a cluster grants them until its controller overwrites '
        + 'them. Export the role again; if the finding stays, see whether the controller runs.',
    L7: 'The files have this object more than once. Only the last one counts; the last field '
        + 'says how many came before it.',
};

class FindingsView {
    constructor() {
        const codes = grouped(PAGE.findings, finding => finding[0]);
        this.element = make('div', {class: 'text findings'}, make('h2', {}, 'Findings'),
            codes.size ? [...codes.values()].map(found => this.section(found))
            : make('p', {}, 'lint found nothing.'));
    }

    section(found) {
        const [code, name] = found[0];
        const title = `${textOf(code)} ${textOf(name)}`;
        return make('section', {}, make('h3', {}, nodesOf(title), ' ',
            muted(figure(found.length))),
            make('p', {class: 'why'}, Object.hasOwn(FINDINGS, code) ? FINDINGS[code] : ''),
            plainTable(title, ['Object', 'Rule or subject', 'Detail'], found,
                finding => finding.slice(2).map(word => fieldNodes(word, 'name'))));
    }

    update() {}
}

// ---- what a search finds

class FindView {
    constructor() {
        this.element = make('div', {class: 'text'});
    }

    update({q = ''}) {
        const search = (field, view, params, all = ROWS.words[field]) => {
            const wants = wantedBy(q);
            const words = all.filter(word => wants(word, field));
            return words.length ? [make('h3', {}, HEADS[field], ' ',
                muted(figure(words.length))),
                plainTable(HEADS[field], [HEADS[field]], words,
                    word => [anchor(view, params(word), fieldNodes(word, field))], 25)] : [];
        };
        const found = q === '' ? [] : [search('who', 'who', word => ({who: word}),
            PRINCIPALS.map(({word}) => word)),
            search('from', 'paths', word => ({who: word}), PATHS.map(({who}) => who)),
            search('namespace', 'what', word => ({ns: word})),
            search('resource', 'rows', word => ({resource: '=' + word})),
            search('name', 'rows', word => ({name: '=' + word})),
            search('binding', 'rows', word => ({binding: '=' + word}))].flat();
        this.element.replaceChildren(make('h2', {}, 'Found'), ...found.flat(3));
        if (!found.length) {
            this.element.append(make('p', {}, q === ''
                ? 'Write a name, a namespace, a resource or a binding into the search box.'
                : 'No principal, namespace, resource, object name or binding of this page has '
                    + 'this text.'));
        }
    }
}
