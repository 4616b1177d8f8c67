// What holds everywhere: a row of the whole cluster whose type has namespaces is a permission in each
// namespace too. So what is looked at in a namespace is its own rows, and these.

// The namespace of the page's filter that stands for each one that has no rows of its own. (No field
// is printed so.)
const OTHER = '\\other';
const BY_CLUSTER = 'ClusterRoleBinding/';

class Everywhere {
    // Types that have namespaces may be given, as API group and resource.
    constructor(rows, given) {
        this.rows = rows;
        this.cluster = rows.words.namespace.indexOf('-');
        this.byCluster = Uint8Array.from(rows.words.binding, word => word.startsWith(BY_CLUSTER));
        this.isGiven = given !== null;
        this.types = new Set((given || []).map(type => type.join('\t')));
        this.isPlain = false;
        this.findTypes();
        this.namespaced = rows.types.map(({group, resource}) =>
            this.hasNamespaces(group + '\t' + resource));
        this.any = new Mask(rows, () => true);
        this.mask = new Mask(rows, entry => this.namespaced[rows.type[entry]]);
        this.isAny = this.cluster >= 0 && Array.from(rows.grantsOf(rows.runsIn(this.cluster)))
            .some(grant => this.mask.count(rows.set[grant]) > 0);
    }

    // A type with a row in a namespace has namespaces. In a plain matrix, what holds everywhere has
    // rows there too, so no other type has.
    findTypes() {
        const {rows} = this;
        const sets = new Uint8Array(rows.setCount);
        for (let run = 0; run < rows.runCount; run++) {
            for (const grant of rows.namespace[run] === this.cluster ? [] : rows.grantsOf([run])) {
                sets[rows.set[grant]] = 1;
                this.isPlain ||= this.byCluster[rows.binding[grant]] === 1;
            }
        }
        const types = new Set();
        sets.forEach((is, set) => is && rows.entriesOf(set)
            .forEach(entry => types.add(rows.type[entry])));
        types.forEach(type => this.types.add(rows.types[type].group + '\t'
            + rows.types[type].resource));
    }

    // Whether a type has namespaces. Where nothing tells, it is taken for one that has, as rbacaudit
    // takes a type that no API resource list has; but for those of Kubernetes that have none.
    hasNamespaces(type) {
        return this.types.has(type) || !this.isGiven && !this.isPlain && !isOfCluster(type);
    }

    isInCluster(run) {
        return this.rows.namespace[run] === this.cluster;
    }

    // Whether a row is of the whole cluster and holds in each namespace.
    holds(row) {
        const {run, entry} = this.rows.find(row);
        return this.isInCluster(run) && this.mask.passes[entry] === 1;
    }

    // The same for a row that a plain matrix repeats in a namespace.
    follows(row) {
        const {run, grant} = this.rows.find(row);
        return this.isInCluster(run) ? this.holds(row) : this.isByCluster(grant);
    }

    isByCluster(grant) {
        return this.byCluster[this.rows.binding[grant]] === 1;
    }

    runsOf(who) {
        return this.cluster < 0 ? [] : this.rows.runsAt(who, this.cluster);
    }

    // Of what somebody has in the whole cluster by a binding: the test of what rows of some namespaces
    // say again, by the same binding; or nothing.
    hidden(run, grant, isOwn) {
        const {rows} = this;
        if (!this.isPlain || !this.isInCluster(run)) {
            return null;
        }
        const own = rows.runsOf(rows.who[run]).filter(run => isOwn(rows.namespace[run]));
        const same = Array.from(rows.grantsOf(own))
            .filter(other => rows.binding[other] === rows.binding[grant]);
        return same.length ? entry => same.some(other => rows.has(rows.set[other], entry)) : null;
    }

    // The rows that hold where a test of namespaces says, in their order: those in these namespaces,
    // and what holds everywhere, unless one of those says the same. `maskOf` gives a mask for each run
    // and grant, and whether what it has has to hold everywhere.
    joined(runs, isOwn, maskOf) {
        const {namespace} = this.rows;
        return new Selection(this.rows, runs, (run, grant) => this.isInCluster(run)
            ? maskOf(run, grant, true) : isOwn(namespace[run]) ? maskOf(run, grant, false) : null,
        (run, grant) => this.hidden(run, grant, isOwn));
    }
}

// Whether a type is a URL, or one of Kubernetes that has no namespaces, or a subresource of one.
function isOfCluster(type) {
    const [group, resource] = type.split('\t');
    const name = group === '-' ? '' : group;
    // (a group may have the name of something that every object has, such as constructor)
    const known = Object.hasOwn(PAGE.cluster, name) ? PAGE.cluster[name] : [];
    return resource.startsWith('/') || known.includes(resource.split('/')[0]);
}

// What is looked at: all rows, or, with a namespace, those that hold there.
class Scope {
    constructor(word) {
        this.word = word;
        this.isAll = word === undefined;
        this.namespace = this.isAll ? undefined : ROWS.words.namespace.indexOf(word);
    }

    get principals() {
        if (!this.found) {
            const found = this.isAll ? principalsOfAll() : principalsIn(this);
            this.found = NAMED ? withNamed(this, found, NAMED) : found;
        }
        return this.found;
    }

    // The runs that may count here, in order.
    get runs() {
        this.foundRuns ||= this.isAll ? ROWS.who.map((_, run) => run)
            : Uint32Array.from([EVERYWHERE.cluster, this.namespace].filter(place => place >= 0)
                .flatMap(place => [...ROWS.runsIn(place)])).sort();
        return this.foundRuns;
    }

    // The rows that hold here, of these runs: those of a grant that passes a mask.
    select(runs, maskOf) {
        return this.isAll ? new Selection(ROWS, runs, (run, grant) => maskOf(run, grant, false))
            : EVERYWHERE.joined(runs, place => place === this.namespace, maskOf);
    }

    // The rows of somebody that hold here; with a bit, those of a category of the watch list.
    rowsOf({who}, bit = 0) {
        const runs = who === undefined ? [] : this.isAll ? ROWS.runsOf(who)
            : [...new Set([...EVERYWHERE.runsOf(who), ...this.ownOf(who)])].sort((a, b) => a - b);
        return [...this.select(runs, (run, _, isEverywhere) => bit
            ? WATCH.maskOf(bit, who, this.isAll ? ROWS.namespace[run] : this.namespace, isEverywhere)
            : isEverywhere ? EVERYWHERE.mask : EVERYWHERE.any)];
    }

    ownOf(who) {
        return this.namespace < 0 ? [] : ROWS.runsAt(who, this.namespace);
    }

    // Where a row counts: - is the whole cluster, or, with a namespace, everywhere.
    placeOf(row) {
        return this.isAll ? ROWS.word(row, 'namespace')
            : EVERYWHERE.follows(row) ? '-' : this.word;
    }

    titleNodes() {
        return this.word === OTHER ? ['any other namespace'] : fieldNodes(this.word, 'namespace');
    }

    placeNodes(place) {
        return place === '-' && !this.isAll ? [muted('everywhere')] : fieldNodes(place, 'namespace');
    }
}

let scoped;

// The rows of a namespace, or of the whole cluster, by a mask for each grant.
function selectIn(word, maskOf) {
    const runs = word !== '-' ? scopeOf(word).runs
        : EVERYWHERE.cluster < 0 ? [] : ROWS.runsIn(EVERYWHERE.cluster);
    return word === '-' ? ALL.select(runs, maskOf) : scopeOf(word).select(runs, maskOf);
}

// The scope of a parameter: of a namespace that is on the page, or of one that isn't.
function scopeOf(word) {
    if (!word || word === '-') {
        return ALL;
    }
    if (scoped?.word !== word) {
        scoped = new Scope(word);
    }
    return scoped;
}
