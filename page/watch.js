// The watch list: who has what is worth watching, in all rows or where they hold in a namespace.

class WatchView {
    constructor() {
        this.list = make('div');
        this.element = make('div', {class: 'text'}, make('div', {class: 'tools'},
            make('h2', {}, 'Watch list'), placeChoice([['', 'in all rows']])), this.about(),
        this.list);
    }

    show(scope) {
        this.scope = scope;
        const held = WATCHED.map((_, at) => holdersOf(scope, at));
        const named = WATCHED.map((_, at) => namedHolders(scope, at));
        this.list.replaceChildren(make('ul', {class: 'tiles'},
            WATCHED.map((watched, at) => this.tile(watched, held[at], named[at])),
            IS_ABOUT_WHO ? comingTile(() => this.jump(COMING.id)) : []),
        ...WATCHED.map((watched, at) => this.section(watched, held[at], named[at], 1 << at)),
        IS_ABOUT_WHO ? comingSection() : '');
    }

    // What counts, and whether those do who may do something only to objects of certain names. Rows
    // with names tell of these names at least.
    about() {
        const named = PAGE.named ? 'Whoever may do it only to objects of certain names is counted '
            + 'apart: by name.'
            : ROWS.words.name.some(word => word !== '-')
                ? 'Rows for objects of certain names count too.'
                : 'Whoever may do it only to objects of certain names isn’t counted.';
        return make('p', {class: 'why'}, 'The steps of rbacaudit powers, and who has everything. '
            + 'A step counts whoever has a row of this page for one of its requests. ' + named);
    }

    tile({id, title}, held, named) {
        const whole = held.filter(({isWhole}) => isWhole).length;
        const where = whole ? figure(whole) + (this.scope.isAll ? ' in the whole cluster'
            : ' everywhere') : !held.length ? named.length ? 'only by name' : 'nobody'
            : this.scope.isAll ? 'in namespaces alone' : 'in this namespace alone';
        const href = link('watch', {at: id, ns: this.scope.word});
        return make('li', {}, make('a', {href, click: () => this.jump(id)},
            make('b', {}, this.counts(held, named)), make('span', {}, title),
            make('small', {class: 'muted'}, where)));
    }

    counts(held, named) {
        return [figure(held.length),
            named.length ? muted(` · ${figure(named.length)} by name`) : []];
    }

    section({id, title, why, names}, held, named, bit) {
        const heads = ['Principal', 'Where', 'Verbs and types', 'Bindings'];
        const parts = held.length ? plainTable(title, heads, held, it => this.line(it, id, bit))
            : make('p', {}, 'Nobody, by the rows of this page.');
        const byName = named.length ? [make('p', {class: 'why'}, 'Only by name: the rule has the '
            + 'names of the objects. rbacaudit rules WHO prints it.'),
        plainTable(title + ', only by name', heads, named, it => this.namedLine(it))] : [];
        return make('section', {id: 'watch-' + id, 'aria-labelledby': 'title-' + id},
            make('h3', {id: 'title-' + id}, title, ' ',
                muted(this.counts(held, named))),
            make('p', {class: 'why'}, why.join(' '), ' ',
                names === 'any' ? 'For this step, rbacaudit powers also counts whoever may do it '
                    + 'only to objects of certain names. ' : '',
                held.length ? anchor('rows', {watch: id, namespace: this.scope.isAll ? ''
                    : '=' + this.scope.word}, 'All rows') : ''), parts, byName);
    }

    // A holder, with the rows that tell and where they count. For one in the whole cluster, these are
    // those in the whole cluster, and then what RoleBindings give too.
    line({it, isWhole}, id, bit) {
        const all = this.scope.rowsOf(it, bit);
        const isOfWhole = row => this.scope.placeOf(row) === '-';
        const rows = isWhole ? all.filter(isOfWhole) : all;
        const more = isWhole ? all.filter(row => !isOfWhole(row)
            && !EVERYWHERE.byCluster[ROWS.place(row, 'binding')]) : [];
        const where = isWhole ? [] : [...new Set(all.map(row => this.scope.placeOf(row)))];
        return [this.who(it), isWhole ? [this.whole(), ...this.also(more)] : this.namespaces(where),
            id === 'everything' ? 'all common verbs on '
                + counted(new Set(rows.map(row => ROWS.typeOf(row))).size, 'type') : this.uses(rows),
            bindingLinks(new Set([...rows, ...more].map(row => ROWS.place(row, 'binding'))))];
    }

    // The first types of some rows, with their verbs: those of the whole cluster first, and then by
    // namespace.
    uses(rows) {
        const uses = new Map();
        const inPlaces = new Map();
        for (const row of rows) {
            const type = ROWS.typeOf(row);
            const place = this.scope.placeOf(row);
            if (!uses.has(type)) {
                uses.set(type, {...ROWS.types[type], verbs: new Set(), isNamed: true, place});
            }
            const use = uses.get(type);
            use.place = byNamespace(place, use.place) < 0 ? place : use.place;
            use.isNamed &&= ROWS.word(row, 'name') !== '-';
            inPlaces.set(place, inPlaces.get(place) || new Map());
            const verbs = inPlaces.get(place);
            verbs.set(type, (verbs.get(type) || new Set()).add(ROWS.place(row, 'verb')));
        }
        [...inPlaces].sort((a, b) => byNamespace(a[0], b[0])).forEach(([, verbs]) =>
            verbs.forEach((found, type) => found.forEach(verb => uses.get(type).verbs.add(verb))));
        const shown = [...uses.values()].sort((a, b) => byNamespace(a.place, b.place)
            || byType(a, b));
        return [shown.slice(0, 4).map(use => this.use(use)),
            shown.length > 4 ? `and ${shown.length - 4} more types` : ''];
    }

    who(it) {
        return anchor('who', {who: it.word, ns: this.scope.word}, principalNodes(it.word));
    }

    whole() {
        return make('b', {class: 'whole'}, this.scope.isAll ? 'whole cluster' : 'everywhere');
    }

    // Where RoleBindings give somebody some of it too.
    also(rows) {
        const places_ = new Set(rows.map(row => ROWS.word(row, 'namespace')));
        return places_.size ? [muted(', also by a binding in '),
            ...this.namespaces([...places_].sort(byText))] : [];
    }

    namedLine({it, lines, places: where}) {
        const uses = grouped(lines, line => line.group + '\t' + line.resource);
        const verbs = found => [...new Set(found.map(({verb}) => lineOf(textOf(verb))))].join(', ');
        const inside = new Set(where.filter(place => place !== '-' && place !== undefined));
        const bindings = [...new Set(lines.map(({binding}) => binding))];
        return [this.who(it),
            [where.includes('-') ? [this.whole(), ' '] : [],
                this.namespaces([...inside].sort(byText)),
                where.includes(undefined) ? muted('as the binding says') : []],
            [...uses.values()].map(found => make('div', {}, muted(verbs(found), ' '),
                typeNodes(found[0].group, found[0].resource), muted(', some objects only'))),
            [bindings.slice(0, 20).map(binding => make('div', {}, fieldNodes(binding, 'binding'))),
                bindings.length > 20 ? muted(`and ${bindings.length - 20} more`) : []]];
    }

    // The verbs that somebody has on a type.
    use({group, resource, verbs, isNamed}) {
        const texts = [...verbs].map(verb => lineOf(textOf(ROWS.words.verb[verb])));
        return make('div', {}, muted(texts.join(', '), ' '), typeNodes(group, resource),
            isNamed ? muted(', some objects only') : '');
    }

    namespaces(words) {
        const shown = words.slice(0, 4).map(word => {
            const nodes = fieldNodes(word, 'namespace');
            return [ROWS.words.namespace.includes(word) ? anchor('what', {ns: word}, nodes) : nodes,
                ' '];
        });
        return words.length > 4 ? [shown,
            muted(`and ${words.length - 4} more`)] : shown;
    }

    jump(id) {
        document.getElementById('watch-' + id)?.scrollIntoView();
    }

    update(params) {
        fill(this.element, params);
        const scope = scopeOf(params.ns);
        if (scope !== this.scope) {
            this.show(scope);
        }
        if (params.at) {
            this.jump(params.at);
        }
    }
}

// Who is in a category; those in the whole cluster come first.
function holdersOf(scope, at) {
    return wholeFirst(scope.principals.filter(it => it.watched >> at & 1)
        .map(it => ({it, isWhole: (it.whole >> at & 1) === 1})));
}

// Who is in a category only by name, with the lines that tell; those in the whole cluster come
// first.
function namedHolders(scope, at) {
    return wholeFirst(scope.principals.filter(it => it.onlyNamed >> at & 1).map(it => {
        const lines = it.named.filter(({bits}) => bits >> at & 1);
        const where = lines.map(({place}) => place);
        return {it, lines, places: where, isWhole: where.includes('-')};
    }));
}

function wholeFirst(holders) {
    return [...holders.filter(it => it.isWhole), ...holders.filter(it => !it.isWhole)];
}
