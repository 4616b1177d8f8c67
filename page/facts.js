// What follows from the rows: who has how much, and who has what is worth watching.

// What to watch: the steps of `rbacaudit powers`, as pairs of verbs and types, some in the whole
// cluster alone, since no server asks about them in a namespace, and some there and in one namespace.
// The last one has no pairs: it is about all that the page lists.
const WATCHED = PAGE.watched;
const EVERYTHING = 1 << (WATCHED.length - 1);

// Whether a pair counts in the whole cluster or in a namespace.
function countsIn(where, isInCluster, namespace) {
    return isInCluster || !where || where === namespace;
}

// Which categories a verb on a type belongs to, in the whole cluster or in a namespace, as bits.
function bitsOf(verb, type, isInCluster, namespace) {
    return places(WATCHED, ({pairs}) => pairs.some(([verbs, types, where]) =>
        countsIn(where, isInCluster, namespace) && verbs.includes(verb) && types.includes(type)));
}

// A category may have several pairs, and a verb of one goes with no type of another: so each pair
// is looked at by itself.
class Watch {
    constructor(rows) {
        this.rows = rows;
        this.pairs = WATCHED.flatMap((watched, at) =>
            watched.pairs.map(([verbs, types, where]) => ({bit: 1 << at, verbs, types, where})));
        this.places = new Set(this.pairs.map(({where}) => where).filter(where => where));
        this.verbs = rows.words.verb.map(word =>
            places(this.pairs, pair => pair.verbs.includes(textOf(word))));
        this.targets = rows.types.map(({group, resource}) =>
            places(this.pairs, pair => pair.types.includes(typeOf(group, resource))));
        this.isCommon = rows.words.verb.map(word => letterAt(word) < LETTERS.length);
        this.commonVerbs = this.isCommon.filter(is => is).length;
        this.entryBits = new Map();
        this.setBits = new Map();
        this.masks = new Map();
        this.countCommon();
    }

    // What of the watch list an entry may belong to depends on this: the whole cluster, a namespace
    // that the list names, or any other.
    kindOf(namespace) {
        const word = this.rows.words.namespace[namespace];
        return namespace === EVERYWHERE.cluster || this.places.has(word) ? word : '';
    }

    // For each entry the categories that it belongs to where it is held, as bits.
    bitsIn(kind) {
        if (!this.entryBits.has(kind)) {
            const {verb} = this.rows.entries;
            this.entryBits.set(kind, Int32Array.from(verb, (_, entry) => this.bitsOfPairs(entry,
                this.verbs[verb[entry]] & this.targets[this.rows.type[entry]], kind)));
        }
        return this.entryBits.get(kind);
    }

    bitsOfPairs(entry, held, kind) {
        let found = 0;
        for (let at = 0; held >> at; at++) {
            const {bit, where} = this.pairs[at];
            found |= held >> at & 1 && countsIn(where, kind === '-', kind) ? bit : 0;
        }
        const {group, resource} = this.rows.types[this.rows.type[entry]];
        const isStar = resource === '*' || group === '*'
            || this.rows.words.verb[this.rows.entries.verb[entry]] === '*';
        return isStar ? found | EVERYTHING : found;
    }

    // The same for all entries of a set that pass a mask: any, or what holds everywhere.
    bitsOf(set, kind, mask) {
        const key = `${mask === EVERYWHERE.mask} ${kind}`;
        if (!this.setBits.has(key)) {
            this.setBits.set(key, new Int32Array(this.rows.setCount).fill(-1));
        }
        const known = this.setBits.get(key);
        if (known[set] < 0) {
            const bits = this.bitsIn(kind);
            known[set] = this.rows.entriesOf(set).reduce((sum, entry) =>
                mask.passes[entry] ? sum | bits[entry] : sum, 0);
        }
        return known[set];
    }

    // The mask of what counts for a category if somebody has it in a namespace where it holds, or in
    // the whole cluster.
    maskOf(bit, who, namespace, isEverywhere) {
        const base = isEverywhere ? EVERYWHERE.mask : EVERYWHERE.any;
        if (bit === EVERYTHING && this.hasEverything(who, namespace)) {
            return base;
        }
        const kind = this.kindOf(namespace);
        const key = `${bit} ${isEverywhere} ${kind}`;
        if (!this.masks.has(key)) {
            const bits = this.bitsIn(kind);
            this.masks.set(key, base.and(entry => bits[entry] & bit));
        }
        return this.masks.get(key);
    }

    // Counts, for hasEverything, requests for common verbs on types: in the whole cluster, everywhere,
    // and in each namespace those that don't hold everywhere.
    countCommon() {
        const {rows} = this;
        const {verb, name} = rows.entries;
        this.common = new Mask(rows, entry => this.isCommon[verb[entry]]
            && rows.words.name[name[entry]] === '-'
            && !rows.types[rows.type[entry]].resource.startsWith('/'));
        this.commonEverywhere = this.common.and(entry => EVERYWHERE.mask.passes[entry]);
        const runs = EVERYWHERE.cluster < 0 ? [] : rows.runsIn(EVERYWHERE.cluster);
        this.types = new Selection(rows, runs, () => this.common).types().size;
        this.typesEverywhere = new Selection(rows, runs, () => this.commonEverywhere).types();
        this.typesInside = new Int32Array(rows.words.namespace.length).fill(-1);
        const count = mask => Uint32Array.from(rows.words.who, (_, who) =>
            rows.countUnion(rows.parts(EVERYWHERE.runsOf(who), mask)));
        this.held = count(this.common);
        this.heldEverywhere = count(this.commonEverywhere);
    }

    // How many types have rows in a namespace, but for those that have some everywhere.
    countTypes(namespace) {
        if (!(namespace >= 0)) {
            return 0;
        }
        if (this.typesInside[namespace] < 0) {
            const inside = new Selection(this.rows, this.rows.runsIn(namespace), () => this.common);
            this.typesInside[namespace] = [...inside.types()]
                .filter(type => !this.typesEverywhere.has(type)).length;
        }
        return this.typesInside[namespace];
    }

    // Whether somebody has every common verb on every type that has rows there: in a namespace, where
    // they have these runs, or in the whole cluster. A page of one verb or one type doesn't tell.
    hasEverything(who, namespace, own = this.rows.runsAt(who, namespace)) {
        const isInCluster = namespace === EVERYWHERE.cluster;
        const all = isInCluster ? this.types
            : this.typesEverywhere.size + this.countTypes(namespace);
        const wanted = this.commonVerbs * all;
        if (this.commonVerbs <= 1 || all <= 1) {
            return false;
        }
        return isInCluster ? this.held[who] === wanted
            : this.heldEverywhere[who] + this.countInside(who, own, wanted) === wanted;
    }

    // How many such requests somebody has in these runs of a namespace, but for those that they have
    // everywhere; or nothing, where all together are too few.
    countInside(who, own, wanted) {
        const parts = this.rows.parts(own, this.common);
        const most = parts.reduce((sum, {set}) => sum + this.common.count(set), 0);
        return most + this.heldEverywhere[who] < wanted ? 0 : this.rows.countUnion(parts,
            this.rows.parts(EVERYWHERE.runsOf(who), this.commonEverywhere));
    }
}

function places(list, test) {
    return list.reduce((bits, item, at) => test(item) ? bits | 1 << at : bits, 0);
}

// A principal without rows yet; who is its place among the words, if it has rows. `whole` has the
// bits of the watch list that count in the whole cluster, or everywhere.
function principal(word, who) {
    return {word, who, permissions: 0, cluster: 0, watched: 0, whole: 0, isEverywhere: false,
        namespaces: 0, bindings: 0, named: [], onlyNamed: 0};
}

// Adds bits of the watch list to a principal that has them in a place.
function addBits(it, place, bits, found) {
    it.watched |= bits;
    it.whole |= place === '-' ? bits : 0;
    found?.set(place, found.get(place) | bits);
}

// The bits of what some runs give in a namespace, or in the whole cluster.
function bitsOfRuns(runs, namespace, mask, test = () => true) {
    let bits = 0;
    for (const grant of ROWS.grantsOf(runs)) {
        bits |= test(grant) ? WATCH.bitsOf(ROWS.set[grant], WATCH.kindOf(namespace), mask) : 0;
    }
    return bits;
}

function countDifferent(numbers) {
    return new Set(numbers).size;
}

// Each principal with its counts, of all rows.
function principalsOfAll() {
    return ROWS.words.who.map((word, who) => {
        const it = principal(word, who);
        const runs = ROWS.runsOf(who);
        const inPlaces = grouped(runs, run => ROWS.namespace[run]);
        for (const [namespace, own] of inPlaces) {
            const count = ROWS.countUnion(ROWS.parts(own, EVERYWHERE.any));
            it.permissions += count;
            it.cluster += namespace === EVERYWHERE.cluster ? count : 0;
            addBits(it, ROWS.words.namespace[namespace], bitsOfPlace(who, namespace, own));
        }
        it.namespaces = inPlaces.size - (inPlaces.has(EVERYWHERE.cluster) ? 1 : 0);
        const grants = [...ROWS.grantsOf(runs)];
        it.bindings = countDifferent(grants.map(grant => ROWS.binding[grant]));
        it.isEverywhere = hasEverywhere(inPlaces.get(EVERYWHERE.cluster) || [])
            || EVERYWHERE.isPlain && [...inPlaces].some(([namespace, own]) =>
                namespace !== EVERYWHERE.cluster
                && Array.from(ROWS.grantsOf(own)).some(grant => EVERYWHERE.isByCluster(grant)));
        return it;
    });
}

// What somebody's rows of a place count for in the watch list.
function bitsOfPlace(who, namespace, own) {
    return bitsOfRuns(own, namespace, EVERYWHERE.any)
        | (WATCH.hasEverything(who, namespace, own) ? EVERYTHING : 0);
}

function hasEverywhere(runs) {
    return Array.from(ROWS.grantsOf(runs)).some(grant =>
        EVERYWHERE.mask.count(ROWS.set[grant]) > 0);
}

// Each principal that has a row in a namespace, or one that holds there too, with its counts there.
function principalsIn(scope) {
    const whole = grouped(EVERYWHERE.cluster < 0 ? [] : ROWS.runsIn(EVERYWHERE.cluster),
        run => ROWS.who[run]);
    const inside = grouped(scope.namespace < 0 ? [] : ROWS.runsIn(scope.namespace),
        run => ROWS.who[run]);
    const found = [];
    ROWS.words.who.forEach((word, who) => {
        const own = inside.get(who) || [];
        const everywhere = hasEverywhere(whole.get(who) || []) ? whole.get(who) : [];
        if (own.length || everywhere.length) {
            found.push(principalIn(scope, principal(word, who), own, everywhere));
        }
    });
    return found;
}

function principalIn(scope, it, own, everywhere) {
    const parts = ROWS.parts(own, EVERYWHERE.any);
    const wholeParts = ROWS.parts(everywhere, EVERYWHERE.mask);
    const ofCluster = Array.from(ROWS.grantsOf(own)).filter(grant => EVERYWHERE.isByCluster(grant))
        .map(grant => ({set: ROWS.set[grant], mask: EVERYWHERE.any}));
    const more = ROWS.countUnion(wholeParts, parts);
    it.permissions = ROWS.countUnion(parts) + more;
    it.cluster = ROWS.countUnion(ofCluster) + more;
    it.isEverywhere = ofCluster.length > 0 || everywhere.length > 0;
    it.namespaces = own.length ? 1 : 0;
    it.bindings = countDifferent([...ROWS.grantsOf(own), ...[...ROWS.grantsOf(everywhere)]
        .filter(grant => EVERYWHERE.mask.count(ROWS.set[grant]))].map(grant => ROWS.binding[grant]));
    addPlaces(scope, it, own, everywhere);
    return it;
}

// Adds the bits of what somebody has in a namespace, by where it counts.
function addPlaces(scope, it, own, everywhere, found) {
    const {namespace, word} = scope;
    const all = WATCH.hasEverything(it.who, namespace, own) ? EVERYTHING : 0;
    const [byCluster, byOthers] = [true, false].map(is => {
        const has = grant => EVERYWHERE.isByCluster(grant) === is;
        return Array.from(ROWS.grantsOf(own)).some(has)
            ? bitsOfRuns(own, namespace, EVERYWHERE.any, has) | all : 0;
    });
    addBits(it, word, byOthers, found);
    addBits(it, '-', byCluster | (everywhere.length
        ? bitsOfRuns(everywhere, namespace, EVERYWHERE.mask) | all : 0), found);
}

// The places in which somebody has something of the watch list in a scope, with its bits.
function watchedAt(scope, it) {
    const found = new Map();
    if (it.who === undefined) {
        return found;
    }
    if (scope.isAll) {
        grouped(ROWS.runsOf(it.who), run => ROWS.namespace[run]).forEach((own, namespace) =>
            addBits(it, ROWS.words.namespace[namespace], bitsOfPlace(it.who, namespace, own), found));
        return found;
    }
    const whole = EVERYWHERE.runsOf(it.who);
    addPlaces(scope, it, scope.ownOf(it.who), hasEverywhere(whole) ? whole : [], found);
    return found;
}

// ---- holders by name

// Where the lines of a binding count: in the whole cluster, or in its namespace. A name with a
// slash, which no cluster has, doesn't tell.
function placeOf(binding) {
    const [kind, namespace, ...name] = binding.split('/');
    return kind === 'ClusterRoleBinding' ? '-' : name.length !== 1 ? undefined
        : namespace === '-' ? '\\x2d' : namespace;
}

// The principals of a scope with what they may do only to objects of certain names, by the lines of
// --named: not what they have a row for there, or in the whole cluster. Who has no row at all is added.
function withNamed(scope, principals, named) {
    const known = new Map(principals.map(it => [it.word, it]));
    for (let at = 0; at < named.length; at++) {
        const [verb, group, resource, who, binding] = NAMED_FIELDS.map(field =>
            named.word(at, field));
        const it = known.get(who) || principal(who);
        const place = placeOf(binding);
        it.at ||= watchedAt(scope, it);
        const held = it.at.get('-') | it.at.get(place);
        const isInCluster = scope.isAll && place === '-';
        const bits = bitsOf(textOf(verb), typeOf(group, resource), isInCluster, place) & ~held;
        if (bits && isNamedIn(scope, place, group, resource)) {
            it.named.push({bits, place, verb, group, resource, binding});
            it.onlyNamed |= bits;
            known.set(who, it);
        }
    }
    return [...known.values()];
}

// Whether a line of --named counts in a scope. One whose namespace its binding doesn't tell may.
function isNamedIn(scope, place, group, resource) {
    return scope.isAll || place === scope.word || place === undefined
        || place === '-' && EVERYWHERE.hasNamespaces(group + '\t' + resource);
}

// ---- orders and groups

function grouped(items, key) {
    const groups = new Map();
    for (const item of items) {
        const name = key(item);
        if (!groups.has(name)) {
            groups.set(name, []);
        }
        groups.get(name).push(item);
    }
    return groups;
}

function byText(a, b) {
    return a < b ? -1 : a > b ? 1 : 0;
}

// The whole cluster, then namespaces by name.
function byNamespace(a, b) {
    return (a !== '-') - (b !== '-') || byText(a, b);
}

// Types by group and name, the core group first; URLs stand last.
function byType(a, b) {
    const isUrl = it => it.resource.startsWith('/');
    return isUrl(a) - isUrl(b) || (a.group !== '-') - (b.group !== '-') || byText(a.group, b.group)
        || byText(a.resource, b.resource);
}

// The verbs that have a letter; all others are a dot.
const LETTERS = [['get', 'g'], ['list', 'l'], ['watch', 'w'], ['create', 'c'], ['update', 'u'],
    ['patch', 'p'], ['delete', 'd']];

function letterAt(verb) {
    const at = LETTERS.findIndex(([name]) => name === verb);
    return at < 0 ? LETTERS.length : at;
}

function classOf(verb) {
    return ['read', 'read', 'read', 'write', 'write', 'write', 'write', 'other'][letterAt(verb)];
}

const NAMED_FIELDS = ['verb', 'group', 'resource', 'who', 'binding'];
let ROWS, DIFF, NAMED, EVERYWHERE, WATCH, ALL, PRINCIPALS;

// Takes what the page has, once it is read.
function takeRows({rows, changes, named, namespaced}) {
    ROWS = new SetRows(rows);
    DIFF = changes && new Rows(changes, ['change', ...FIELDS]);
    NAMED = named && new Rows(named, NAMED_FIELDS);
    EVERYWHERE = new Everywhere(ROWS, namespaced);
    WATCH = new Watch(ROWS);
    ALL = new Scope();
    PRINCIPALS = ALL.principals;
}
