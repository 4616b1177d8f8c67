// The rows of the matrix by sets: what is had together stands once, with who has it where. The head
// of plugin/rbacaudit_kubectl/page_rows.py says how they are written.

const ENTRY_FIELDS = ['verb', 'group', 'resource', 'name'];
const KEPT_RUNS = 256;   // how many runs' rows are kept in order, once looked at

// Numbers from their differences.
function sums(differences) {
    const numbers = new Uint32Array(differences.length);
    let sum = 0;
    for (let at = 0; at < numbers.length; at++) {
        sum += differences[at];
        numbers[at] = sum;
    }
    return numbers;
}

// Where each of some parts of these lengths begins, and the end of the last one.
function starts(lengths) {
    const found = new Float64Array(lengths.length + 1);
    for (let at = 0; at < lengths.length; at++) {
        found[at + 1] = found[at] + lengths[at];
    }
    return found;
}

// The last place whose start is at most this, between two places.
function partOf(starts_, number) {
    let [low, high] = [0, starts_.length - 1];
    while (high - low > 1) {
        const middle = (low + high) >> 1;
        [low, high] = starts_[middle] <= number ? [middle, high] : [low, middle];
    }
    return low;
}

// The places of each number in a column, in order.
function placesBy(column, count) {
    const firsts = new Uint32Array(count + 1);
    column.forEach(number => { firsts[number + 1]++; });
    for (let number = 0; number < count; number++) {
        firsts[number + 1] += firsts[number];
    }
    const next = firsts.slice();
    const places_ = new Uint32Array(column.length);
    column.forEach((number, at) => { places_[next[number]++] = at; });
    return number => places_.subarray(firsts[number], firsts[number + 1]);
}

class SetRows {
    constructor({count, words, entries, sets, runs, grants}) {
        this.fields = FIELDS;
        this.length = count;
        this.words = Object.fromEntries(FIELDS.map((field, at) => [field, words[at]]));
        this.entries = Object.fromEntries(ENTRY_FIELDS.map((field, at) =>
            [field, sums(entries[at])]));
        this.entryCount = this.entries.verb.length;
        this.firsts = starts(sums(sets[0]));
        this.members = sums(sets[1]);
        this.setCount = this.firsts.length - 1;
        [this.who, this.namespace] = runs.slice(0, 2).map(sums);
        this.grants = starts(sums(runs[2]));
        [this.binding, this.set] = grants.map(sums);
        this.runCount = this.who.length;
        this.rowStarts = starts(Array.from(this.who, (_, run) => this.sizeOf(run)));
        this.runsOf = placesBy(this.who, words[0].length);
        this.runsIn = placesBy(this.namespace, words[1].length);
        this.seen = new Uint32Array(this.entryCount);
        this.time = 0;
        this.kept = new Map();
        this.findTypes();
    }

    // Numbers for the types of entries.
    findTypes() {
        const known = new Map();
        const {group, resource} = this.entries;
        this.types = [];
        this.type = group.map((_, entry) => {
            const key = group[entry] * this.words.resource.length + resource[entry];
            if (!known.has(key)) {
                known.set(key, this.types.length);
                this.types.push({key: this.types.length, group: this.words.group[group[entry]],
                    resource: this.words.resource[resource[entry]]});
            }
            return known.get(key);
        });
    }

    entriesOf(set) {
        return this.members.subarray(this.firsts[set], this.firsts[set + 1]);
    }

    sizeOf(run) {
        let size = 0;
        for (let grant = this.grants[run]; grant < this.grants[run + 1]; grant++) {
            size += this.firsts[this.set[grant] + 1] - this.firsts[this.set[grant]];
        }
        return size;
    }

    // Whether a set has an entry.
    has(set, entry) {
        let [low, high] = [this.firsts[set], this.firsts[set + 1]];
        const end = high;
        while (low < high) {
            const middle = (low + high) >>> 1;
            [low, high] = this.members[middle] < entry ? [middle + 1, high] : [low, middle];
        }
        return low < end && this.members[low] === entry;
    }

    // The rows of a run, in order: of each its grant and its entry.
    ordered(run) {
        const first = this.grants[run];
        if (this.grants[run + 1] - first === 1) {
            return {entries: this.entriesOf(this.set[first]), grantAt: () => first};
        }
        if (!this.kept.has(run)) {
            if (this.kept.size === KEPT_RUNS) {
                this.kept.delete(this.kept.keys().next().value);
            }
            this.kept.set(run, this.merged(run));
        }
        return this.kept.get(run);
    }

    // (a number for each entry and grant, since numbers are sorted fast)
    merged(run) {
        const first = this.grants[run];
        const count = this.grants[run + 1] - first;
        const keys = new Float64Array(this.sizeOf(run));
        let size = 0;
        for (let at = 0; at < count; at++) {
            for (const entry of this.entriesOf(this.set[first + at])) {
                keys[size++] = entry * count + at;
            }
        }
        keys.sort();
        return {entries: Uint32Array.from(keys, key => Math.floor(key / count)),
            grantAt: at => first + keys[at] % count};
    }

    // What a row is: its run, its grant and its entry.
    find(row) {
        const last = this.found;
        if (!last || row < this.rowStarts[last.run] || row >= this.rowStarts[last.run + 1]) {
            const run = partOf(this.rowStarts, row);
            this.found = {run, ...this.ordered(run)};
        }
        const {run, entries, grantAt} = this.found;
        const at = row - this.rowStarts[run];
        return {run, grant: grantAt(at), entry: entries[at]};
    }

    // The place of a field's word.
    place(row, field) {
        const {run, grant, entry} = this.find(row);
        return field === 'who' ? this.who[run] : field === 'namespace' ? this.namespace[run]
            : field === 'binding' ? this.binding[grant] : this.entries[field][entry];
    }

    word(row, field) {
        return this.words[field][this.place(row, field)];
    }

    line(row) {
        return this.fields.map(field => this.word(row, field)).join('\t');
    }

    typeOf(row) {
        return this.type[this.find(row).entry];
    }

    mask(field, wanted) {
        return maskOf(this.words[field], field, wanted);
    }

    // The grants of some runs.
    *grantsOf(runs) {
        for (const run of runs) {
            for (let grant = this.grants[run]; grant < this.grants[run + 1]; grant++) {
                yield grant;
            }
        }
    }

    // What some runs give: each set with a mask.
    parts(runs, mask) {
        return Array.from(this.grantsOf(runs), grant => ({set: this.set[grant], mask}));
    }

    // How many different entries such parts have that pass, but for those of other parts.
    countUnion(parts, others = []) {
        if (!others.length && parts.length === 1) {
            return parts[0].mask.count(parts[0].set);
        }
        this.time++;
        others.forEach(part => this.mark(part));
        return parts.reduce((count, part) => count + this.mark(part), 0);
    }

    // Marks what a part has; how many of these weren't marked.
    mark({set, mask}) {
        let count = 0;
        for (let at = this.firsts[set]; at < this.firsts[set + 1]; at++) {
            const entry = this.members[at];
            if (mask.passes[entry] && this.seen[entry] !== this.time) {
                this.seen[entry] = this.time;
                count++;
            }
        }
        return count;
    }

    // The runs of somebody in a namespace.
    runsAt(who, namespace) {
        const [ofWho, inside] = [this.runsOf(who), this.runsIn(namespace)];
        return ofWho.length < inside.length ? ofWho.filter(run => this.namespace[run] === namespace)
            : inside.filter(run => this.who[run] === who);
    }
}

// Which entries pass, by a test; and how many of each set.
class Mask {
    constructor(rows, test) {
        this.rows = rows;
        this.passes = new Uint8Array(rows.entryCount);
        this.counts = new Int32Array(rows.setCount).fill(-1);
        for (let entry = 0; entry < rows.entryCount; entry++) {
            this.passes[entry] = test(entry) ? 1 : 0;
        }
    }

    count(set) {
        if (this.counts[set] < 0) {
            let count = 0;
            for (let at = this.rows.firsts[set]; at < this.rows.firsts[set + 1]; at++) {
                count += this.passes[this.rows.members[at]];
            }
            this.counts[set] = count;
        }
        return this.counts[set];
    }

    // This mask, but only for entries that pass another test too.
    and(test) {
        return new Mask(this.rows, entry => this.passes[entry] && test(entry));
    }
}

// The rows of a page that pass, in order, without a list of them. `maskOf` gives the mask of what a run
// has by a grant, or nothing where no row of it passes; and `isHidden`, if there is one, says which
// entries of it don't pass although their mask has them.
class Selection {
    constructor(rows, runs, maskOf, isHidden = null) {
        Object.assign(this, {rows, maskOf, isHidden});
        const counts = [];
        this.runs = [];
        for (const run of runs) {
            const count = this.countIn(run);
            if (count) {
                this.runs.push(run);
                counts.push(count);
            }
        }
        this.starts = starts(counts);
        this.length = this.starts[counts.length];
    }

    countIn(run) {
        const {rows} = this;
        let count = 0;
        for (let grant = rows.grants[run]; grant < rows.grants[run + 1]; grant++) {
            const mask = this.maskOf(run, grant);
            const hidden = mask && this.isHidden?.(run, grant);
            count += !mask ? 0 : !hidden ? mask.count(rows.set[grant])
                : rows.entriesOf(rows.set[grant]).reduce((sum, entry) =>
                    sum + (mask.passes[entry] && !hidden(entry) ? 1 : 0), 0);
        }
        return count;
    }

    // The rows of a run that pass.
    rowsOf(run) {
        const {entries, grantAt} = this.rows.ordered(run);
        const tests = new Map();
        const found = [];
        entries.forEach((entry, at) => {
            const grant = grantAt(at);
            if (!tests.has(grant)) {
                tests.set(grant, [this.maskOf(run, grant), this.isHidden?.(run, grant)]);
            }
            const [mask, hidden] = tests.get(grant);
            if (mask?.passes[entry] && !hidden?.(entry)) {
                found.push(this.rows.rowStarts[run] + at);
            }
        });
        return found;
    }

    // The row at a place of the selection.
    at(place) {
        const part = partOf(this.starts, place);
        if (this.last !== part) {
            this.last = part;
            this.lastRows = this.rowsOf(this.runs[part]);
        }
        return this.lastRows[place - this.starts[part]];
    }

    *[Symbol.iterator]() {
        for (const run of this.runs) {
            yield* this.rowsOf(run);
        }
    }

    // How many rows are of some runs.
    countOf(test) {
        return this.runs.reduce((count, run, at) =>
            count + (test(run) ? this.starts[at + 1] - this.starts[at] : 0), 0);
    }

    // The types of these rows, as numbers.
    types() {
        const found = new Set();
        const looked = new Map();
        for (const run of this.runs) {
            for (const grant of this.rows.grantsOf([run])) {
                this.addTypes(this.maskOf(run, grant), this.rows.set[grant], looked, found);
            }
        }
        return found;
    }

    // Adds the types of a set; what was looked at with the same mask has been added.
    addTypes(mask, set, looked, found) {
        if (!looked.has(mask)) {
            looked.set(mask, new Uint8Array(this.rows.setCount));
        }
        if (mask && !looked.get(mask)[set]) {
            looked.get(mask)[set] = 1;
            this.rows.entriesOf(set).forEach(entry => {
                if (mask.passes[entry]) {
                    found.add(this.rows.type[entry]);
                }
            });
        }
    }
}
