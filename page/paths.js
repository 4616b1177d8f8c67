// Whom somebody can take over, by `rbacaudit paths`, and who is allowed a request or can take over
// somebody who is, by `who-can --indirect`. Each line leads to another: up to whoever is asked
// about, or down to the request.

const PATH_FIELDS = ['steps', 'who', 'where', 'from', 'from_where', 'step', 'binding', 'role',
    'source', 'rule', 'subject'];
const REASONS = ['binding', 'role', 'source', 'rule', 'subject'];
const KINDS = {user: 'Users', group: 'Groups', 'service account': 'Accounts', role: 'Roles'};
const ALL_THERE_IS = '*\t*';   // the node: everything in the whole cluster

// A node as addresses have it: who or what, and where.
function nodeOf(row) {
    return LINES.word(row, 'who') + '\t' + LINES.word(row, 'where');
}

// The node that a line leads to: the one before, or, on the way to a request, the one after.
function nextOf(row) {
    return LINES.word(row, 'from') + '\t' + LINES.word(row, 'from_where');
}

function stepsOf(row) {
    return Number(LINES.word(row, 'steps'));
}

function kindOfNode(word) {
    return word === '*' ? 'everything' : isKey(word) ? kindOf(word) : 'role';
}

// Lines that belong together: the paths of a principal, or what a file says of a request.
class Answer {
    constructor([file, who, first, end]) {
        Object.assign(this, {file, who, first, end, isOfRequest: who === null,
            length: end - first, told: TOLD.get(who)});
    }

    // The line of each node.
    get lines() {
        if (!this.byNode) {
            this.byNode = new Map();
            for (let row = this.first; row < this.end; row++) {
                this.byNode.set(nodeOf(row), row);
            }
        }
        return this.byNode;
    }

    // The lines of the path from whoever is asked about to a node, or from a node to the request.
    path(node) {
        const rows = [];
        for (let row = this.lines.get(node); row !== undefined; row = this.lines.get(nextOf(row))) {
            rows.push(row);
        }
        return this.isOfRequest ? rows : rows.reverse();
    }

    // How far the lines reach: how many nodes of each kind there are; in how many steps everything in
    // the whole cluster; and the namespaces of everything else. Of an answer of which the page has a
    // part, the numbers are told.
    get reach() {
        if (!this.reached) {
            this.reached = {counts: {}, everything: undefined, places: []};
            for (let row = this.first; row < this.end; row++) {
                this.count(row, this.reached);
            }
            this.reached.placeCount = this.reached.places.length;
            Object.assign(this.reached, this.told);
        }
        return this.reached;
    }

    count(row, reach) {
        const kind = kindOfNode(LINES.word(row, 'who'));
        if (kind !== 'everything') {
            reach.counts[kind] = (reach.counts[kind] || 0) + 1;
        } else if (nodeOf(row) === ALL_THERE_IS) {
            reach.everything = stepsOf(row);
        } else {
            reach.places.push(LINES.word(row, 'where'));
        }
    }

    // How many nodes there are, and how many steps the farthest one takes. (Lines are in order of
    // their steps.)
    get size() {
        return this.told ? this.told.lines : this.length;
    }

    get most() {
        return this.told ? this.told.most : stepsOf(this.end - 1);
    }
}

// How far principals reach of whose paths the page has a part.
const TOLD = new Map();
let LINES, PATHS, REQUESTS, IS_ABOUT_WHO;

// Takes the paths of the page, once they are read.
function takePaths({paths, reach}) {
    for (const [who, everything, ...numbers] of reach || []) {
        const [placeCount, user, group, account, role, lines, most] = numbers.map(Number);
        TOLD.set(who, {everything: everything === '-' ? undefined : Number(everything), placeCount,
            counts: {user, group, 'service account': account, role}, lines, most});
    }
    LINES = paths && new Rows(paths.lines, PATH_FIELDS);
    const given = paths ? paths.answers.map(it => new Answer(it)) : [];
    PATHS = given.filter(it => !it.isOfRequest);
    REQUESTS = given.filter(it => it.isOfRequest);
    // (whether principals were asked about; of files without lines, that isn't known)
    IS_ABOUT_WHO = paths !== null && (PATHS.length > 0 || !REQUESTS.length);
}

// ---- texts

function capital(text) {
    return text[0].toUpperCase() + text.slice(1);
}

// Who or what a node is, and where it counts.
function nodeNodes(node) {
    const [word, where] = node.split('\t');
    const kind = kindOfNode(word);
    const name = kind === 'everything' ? make('b', {class: 'whole'}, kind)
        : make('bdi', {}, nodesOf(textOf(word)));
    return isKey(word) ? principalNodes(word) : [name, muted(' in ', where === '*'
        ? 'the whole cluster' : make('bdi', {}, nodesOf(textOf(where))))];
}

// Names with commas between, the first of many.
function namesNodes(names, most) {
    return [...names.slice(0, most).flatMap((name, at) =>
        [at ? ', ' : '', make('bdi', {}, nodesOf(name))]),
    names.length > most ? muted(` and ${figure(names.length - most)} more`) : ''];
}

// What is said of files without lines: they don't name whom they are about.
function emptyNodes() {
    const {empty} = PAGE.paths;
    return empty.length ? [make('p', {class: 'why empty'}, namesNodes(empty, 20),
        empty.length > 1 ? ' are empty: by these answers nobody can take over anybody or anything.'
            : ' is empty: by this answer nobody can take over anybody or anything.')] : [];
}

// How far the lines of an answer reach, in words.
function reachText({reach: {counts, everything, placeCount}}) {
    return [everything === undefined ? '' : 'everything in the whole cluster',
        placeCount ? 'everything in ' + counted(placeCount, 'namespace') : '',
        ...Object.keys(KINDS).map(kind => counts[kind] ? counted(counts[kind], kind) : '')]
        .filter(part => part).join(', ');
}

// A link to the paths of a principal, if the page has any.
function takesOver(who) {
    const answer = PATHS.find(it => it.who === who);
    return answer ? [' ', anchor('paths', {who}, 'Can take over ' + reachText(answer))] : [];
}

// ---- what principals can take over

// Those who can take over everything in the whole cluster, fewest steps first.
function whoTakeOverEverything() {
    return PATHS.filter(it => it.reach.everything !== undefined)
        .sort((a, b) => a.reach.everything - b.reach.everything);
}

// Who can take over how much, most first: everything in the whole cluster, in the fewest steps;
// everything in the most namespaces; the most accounts; the most in all.
function ranked() {
    const accounts = ({reach}) => reach.counts['service account'] || 0;
    const others = PATHS.filter(it => it.reach.everything === undefined).sort((a, b) =>
        b.reach.placeCount - a.reach.placeCount || accounts(b) - accounts(a)
        || b.size - a.size);
    return [...whoTakeOverEverything(), ...others];
}

// What the list of principals lacks.
function missedNodes() {
    const {unasked} = PAGE;
    const nobody = 'Whoever isn’t listed can take over nobody and nothing';
    return unasked === null ? [nobody + ', or wasn’t asked about.']
        : [nobody + ', except as a member of a group that is. ', unasked.length ? make('b', {class: 'missed'},
        counted(unasked.length, 'principal'), ' with a power weren’t asked about: ',
        namesNodes(unasked.map(textOf), 5), '.') : 'Everybody with a power was asked about.'];
}

class PathsView {
    constructor() {
        this.shown = [];
        this.sheet = new Sheet('What principals can take over', [head('Principal'),
            head('Everything in', 'Where they can take over everything'),
            ...Object.entries(KINDS).map(([kind, title]) => head(title,
                `How many ${kind}s they can take over`, 'number')),
            head('In all', 'All that they can take over', 'number'),
            head('Most steps', 'To what is farthest', 'number')], at => this.row(this.shown[at]),
        'reach');
        this.summary = muted();
        this.list = make('div', {class: 'view'}, make('div', {class: 'tools'},
            make('h2', {}, 'What principals can take over'),
            filterInput('Filter principals', 'q', 'filter principals'), this.summary),
        make('p', {class: 'why'}, 'By rbacaudit paths: whom and what each principal can take over, '
            + 'step by step. Whoever can take over the most is listed first: everything in the whole '
            + 'cluster, everything in a namespace, service accounts. ', missedNodes()),
        emptyNodes(), this.sheet.element);
        this.detail = new AnswerView('paths', ['Can take over', 'Last step', 'From']);
        this.element = make('div', {class: 'view'});
    }

    update(params) {
        const isOne = Boolean(params.who);
        this.element.replaceChildren(isOne ? this.detail.element : this.list);
        if (isOne) {
            this.detail.update(PATHS.find(({who}) => who === params.who), params);
            return;
        }
        fill(this.list, params);
        const wants = wantedBy(params.q || '');
        this.ranked ||= ranked();
        this.shown = this.ranked.filter(({who}) => wants(who, 'who'));
        this.summary.textContent = counted(this.shown.length, 'principal');
        this.sheet.show(this.shown.length);
    }

    row(it) {
        const {everything, places, placeCount, counts} = it.reach;
        const name = make('th', {scope: 'row', title: lineOf(textOf(it.who))},
            anchor('paths', {who: it.who}, principalNodes(it.who)));
        const where = everything !== undefined ? anchor('paths', {who: it.who, node: ALL_THERE_IS},
            make('b', {class: 'whole'}, 'whole cluster'), ` in ${counted(everything, 'step')}`)
            : placeCount ? this.placeLinks(it.who, places, placeCount) : muted('–');
        const numbers = [...Object.keys(KINDS).map(kind => counts[kind]), it.size, it.most];
        return [name, cell('', where), ...numbers.map(number =>
            cell('number', number ? figure(number) : muted('–')))];
    }

    // The first of some namespaces, with a link to the path to everything there.
    placeLinks(who, places_, count) {
        const shown = places_.slice(0, 3);
        return [...shown.flatMap((place, at) => [at ? ', ' : '', anchor('paths',
            {who, node: '*\t' + place}, make('bdi', {}, nodesOf(textOf(place))))]),
        count > shown.length ? muted(` and ${figure(count - shown.length)} more`) : ''];
    }
}

// ---- who can indirectly do what is asked for

class RequestsView {
    constructor() {
        const choice = make('select', {'aria-label': 'File', 'data-param': 'file',
            change: event => change({file: event.target.value, node: ''})},
        REQUESTS.map(({file}, at) => make('option', {value: at ? String(at + 1) : ''},
            lineOf(file))));
        this.detail = new AnswerView('requests', ['Who or what', 'First step', 'Takes over'],
            REQUESTS.length > 1 ? [choice] : []);
        this.element = make('div', {class: 'view'}, IS_ABOUT_WHO ? [] : emptyNodes(),
            this.detail.element);
    }

    update(params) {
        this.detail.update(REQUESTS[(params.file || 1) - 1], params);
    }
}

// ---- an answer, and a path of it

class AnswerView {
    constructor(view, heads, tools = []) {
        this.view = view;
        this.isOfRequest = view === 'requests';
        this.shown = [];
        this.sheet = new Sheet('Lines', [head('Steps', 'On a shortest path', 'number'),
            ...[...heads, 'Binding', 'Role'].map(title => head(title))],
        at => this.row(this.shown[at]), 'answer');
        this.path = make('div', {class: 'steps', tabindex: 0, role: 'region',
            'aria-label': 'Path'});
        this.title = make('h2');
        this.summary = make('p', {class: 'muted'});
        this.links = make('span');
        this.filter = filterInput('Filter by any field', 'q', 'any field');
        this.element = make('div', {class: 'view'}, this.title, this.summary,
            make('div', {class: 'tools'}, tools, this.filter, this.links),
            make('p', {class: 'why'}, 'Each step has the first grant that allows it; a role needs no '
                + 'binding for it, and everything no grant. A path is one of the shortest: another '
                + 'may be as short.'), this.sheet.element, this.path);
    }

    // Shows the lines of an answer, or, with a node, the path to it.
    update(answer, params) {
        const {node} = params;
        fill(this.element, params);
        this.answer = answer;
        this.address = {who: params.who, file: params.file};
        this.path.hidden = !node;
        this.sheet.element.hidden = this.filter.hidden = Boolean(node);
        const rows = answer && node ? answer.path(node) : [];
        this.path.replaceChildren(...rows.length ? this.stepsTable(rows) : []);
        this.shown = !answer || node ? [] : LINES.matching({q: params.q},
            row => row >= answer.first && row < answer.end);
        this.sheet.show(this.shown.length);
        this.title.replaceChildren(...this.titleNodes(params, rows.length));
        this.summary.textContent = this.summaryText(params, rows.length);
        this.links.replaceChildren(...this.linkNodes(params));
    }

    titleNodes({who, node}, length) {
        const about = this.isOfRequest ? [make('bdi', {}, nodesOf(this.answer?.file
            || 'no such file'))] : principalNodes(who);
        return !length ? about : this.isOfRequest
            ? [muted('Path of '), ...nodeNodes(node), muted(' to '), ...about]
            : [...about, muted(' can take over '), ...nodeNodes(node)];
    }

    summaryText({who, node}, length) {
        const {answer, isOfRequest} = this;
        if (!answer) {
            return isOfRequest ? 'This page has no such file.' : 'This page has no path of them: they '
                + 'can take over nobody and nothing, or weren’t asked about.'
                + (isKey(who) ? '' : ' A principal is written u:NAME or g:NAME.');
        }
        if (node) {
            const steps = length - (isOfRequest ? 1 : 0);
            return length ? counted(steps, 'step') + '.' : 'No path of this page leads there.';
        }
        const most = `in at most ${counted(answer.most, 'step')}`;
        const part = answer.told ? ` The page has ${figure(answer.length)} of `
            + `${counted(answer.size, 'line')}, which lead to everything or are the first; `
            + 'rbacaudit paths prints all.' : '';
        return isOfRequest ? 'May do what this file is about, or can take over somebody or something '
            + `that may, ${most}: ${reachText(answer)}.`
            : `They can take over ${reachText(answer)}, ${most}.${part}`;
    }

    linkNodes({who, node}) {
        const isListed = PRINCIPALS.some(({word}) => word === who);
        return [node ? anchor(this.view, this.address, 'All paths') : '', node && isListed ? ' · ' : '',
            isListed ? anchor('who', {who}, 'What they have') : ''];
    }

    // A line: a node, the step to or from it, and the node at its other end.
    row(row) {
        const node = nodeOf(row);
        return [cell('number', LINES.word(row, 'steps')), cell('', anchor(this.view,
            {...this.address, node}, nodeNodes(node))), cell('', stepNodes(row)),
        cell('', otherNodes(row)), ...['binding', 'role'].map(field =>
            cell('', fieldNodes(LINES.word(row, field), field)))];
    }

    // The same step by step, from the one who takes over to the one that is taken over.
    stepsTable(rows) {
        const heads = ['', 'Who or what', 'Step', 'Takes over', ...REASONS.map(capital)];
        return plainTable('Steps', heads, [...rows.entries()], ([at, row]) => {
            const ends = [nodeNodes(nodeOf(row)), otherNodes(row)];
            const [taker, taken] = this.isOfRequest ? ends : ends.reverse();
            return [figure(at + 1), taker, stepNodes(row), taken,
                ...REASONS.map(field => fieldNodes(LINES.word(row, field), field))];
        });
    }
}

function stepNodes(row) {
    return stepsOf(row) === 0 ? muted('–') : make('b', {class: 'step'}, LINES.word(row, 'step'));
}

// The other end of a line's step: without one, the node may do what is asked by itself.
function otherNodes(row) {
    return stepsOf(row) === 0 ? [muted('may do it')] : nodeNodes(nextOf(row));
}

// ---- in the watch list

const COMING = {id: 'comes', title: 'Can take over everything (*)'};

function comingTile(jump) {
    return make('li', {}, make('a', {href: link('watch', {at: COMING.id}), click: jump},
        make('b', {}, figure(whoTakeOverEverything().length)), make('span', {}, COMING.title),
        make('small', {class: 'muted'}, `of ${counted(PATHS.length, 'principal')} with paths`)));
}

function comingSection() {
    const found = whoTakeOverEverything();
    return make('section', {id: 'watch-' + COMING.id, 'aria-labelledby': 'title-' + COMING.id},
        make('h3', {id: 'title-' + COMING.id}, COMING.title, ' ', muted(figure(found.length))),
        make('p', {class: 'why'}, 'Can take over everything in the whole cluster, step by step, by '
            + 'rbacaudit paths; whoever has everything can do so in one step. Only principals count '
            + 'whose paths this page has. ', anchor('paths', {}, 'All paths')),
        found.length ? plainTable(COMING.title, ['Principal', 'Steps', 'Path', 'Bindings'], found,
            it => comingCells(it)) : make('p', {}, 'Nobody, by the paths of this page.'));
}

function comingCells(it) {
    const rows = it.path(ALL_THERE_IS);
    const shown = rows.slice(0, 4).flatMap((row, at) => [at ? muted(', ') : '',
        LINES.word(row, 'step'), muted(' → '), ...nodeNodes(nodeOf(row))]);
    const bindings = [...new Set(rows.map(row => LINES.word(row, 'binding')))]
        .filter(word => word !== '-').map(textOf);
    return [anchor('who', {who: it.who}, principalNodes(it.who)), figure(rows.length),
        [shown, muted(rows.length > 4 ? ` and ${figure(rows.length - 4)} more; ` : '; '),
            anchor('paths', {who: it.who, node: ALL_THERE_IS}, 'why')],
        namesNodes(bindings, 3)];
}
