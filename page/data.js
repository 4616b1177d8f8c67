'use strict';

const PAGE = JSON.parse(document.getElementById('data').textContent);

// Takes the parts of the page that are packed, if any are: JSON that is compressed, in base64.
async function unpack() {
    const bytes = bytesOf(PAGE.packed);
    delete PAGE.packed;
    const stream = new Blob([bytes]).stream().pipeThrough(new DecompressionStream('deflate'));
    Object.assign(PAGE, await new Response(stream).json());
}

// What the page holds. The rows of the matrix are in sets (sets.js); other lines are coded by tables
// of words: each field has the list of its words and a column of places in it. A word stays spelled as
// `matrix` prints it, so a copied or saved row is the matrix's own line; what is shown is the text
// that it means.

const FIELDS = ['who', 'namespace', 'verb', 'group', 'resource', 'name', 'binding'];
const HEADS = {change: 'Change', who: 'Who', namespace: 'Namespace', verb: 'Verb',
    group: 'API group',
    resource: 'Resource or URL', name: 'Name', binding: 'Binding', from: 'Who, in paths'};
// What an empty field means.
const EMPTY = {namespace: 'whole cluster', group: 'core'};
const CHANGES = {'+': 'gained', '-': 'lost'};

class Rows {
    constructor({count, words, columns}, fields) {
        this.fields = fields;
        this.length = count;
        this.words = {};
        this.columns = {};
        fields.forEach((field, at) => {
            this.words[field] = words[at];
            this.columns[field] = numbersOf(columns[at], words[at].length);
        });
    }

    word(row, field) {
        return this.words[field][this.columns[field][row]];
    }

    line(row) {
        return this.fields.map(field => this.word(row, field)).join('\t');
    }

    mask(field, wanted) {
        return maskOf(this.words[field], field, wanted);
    }

    // The rows that pass: for each field that is named, by its filter; with q, by any field; and by
    // a test of the row's place.
    matching(filters, test) {
        const each = this.fields.filter(field => filters[field])
            .map(field => [this.columns[field], this.mask(field, filters[field])]);
        const some = filters.q ? this.fields.map(field => [this.columns[field],
            this.mask(field, filters.q)]) : null;
        const found = new Uint32Array(this.length);
        let count = 0;
        for (let row = 0; row < this.length; row++) {
            const passes = ([column, mask]) => mask[column[row]];
            if (each.every(passes) && (!some || some.some(passes)) && (!test || test(row))) {
                found[count++] = row;
            }
        }
        return found.subarray(0, count);
    }
}

// For each word of a field, whether it is wanted: 1 or 0.
function maskOf(words, field, wanted) {
    const wants = wantedBy(wanted);
    return Uint8Array.from(words, word => wants(word, field));
}

// A column's numbers, from their base64: one, two or four bytes each, by how many words there are.
function numbersOf(text, words) {
    const Numbers = words <= 256 ? Uint8Array : words <= 65536 ? Uint16Array : Uint32Array;
    return new Numbers(bytesOf(text).buffer);
}

function bytesOf(base64) {
    const binary = atob(base64);
    const bytes = new Uint8Array(binary.length);
    for (let at = 0; at < bytes.length; at++) {
        bytes[at] = binary.charCodeAt(at);
    }
    return bytes;
}

// The test of a filter: `=WORD` wants a field that is printed so, any other text one whose text has
// it, in small or capital letters.
function wantedBy(wanted) {
    if (wanted.startsWith('=')) {
        return word => word === wanted.slice(1);
    }
    const small = wanted.toLowerCase();
    return (word, field) => meaning(word, field).toLowerCase().includes(small);
}

// ---- texts

// The text that a printed field stands for.
function textOf(word) {
    if (word === '-') {
        return '';
    }
    return word.includes('\\') ? word.replace(/\\\\|\\x([0-9a-f]{2})/g, (_, code) => code
        ? String.fromCharCode(parseInt(code, 16)) : '\\') : word;
}

function meaning(word, field) {
    if (field === 'change') {
        return CHANGES[word];
    }
    return word === '-' ? EMPTY[field] || '' : textOf(word);
}

// Characters that can't be seen, or change how their neighbours are shown: those of the table that the
// plugin escapes by, and a blank at an end or beside another.
const UNSEEN = new RegExp(`[${PAGE.unseen}]|(?<![^ ]) | (?![^ ])`, 'gu');
const LONGEST = 300;
const LONGEST_TITLE = 4000;
const LONG = 24;   // a text of more characters may be wider than a cell
const TAIL = 12;   // how many at its end stay in view

function codeOf(character) {
    return 'U+' + character.codePointAt(0).toString(16).toUpperCase().padStart(4, '0');
}

function figure(count) {
    return count.toLocaleString('en');
}

function counted(count, one, many = one + 's') {
    return figure(count) + ' ' + (count === 1 ? one : many);
}

// The place nearest before this one at which a text may be cut: in no character, and beside no blank,
// which would look like one at an end.
function cutAt(text, at) {
    while (at > 0 && (/[ \udc00-\udfff]/.test(text[at]) || text[at - 1] === ' ')) {
        at--;
    }
    return at;
}

// A text as nodes: each unseen character as its code. Of a long one the middle gives way where there
// is no room, since names differ at their ends; of a very long one it is left out, which it says,
// unless all of it is wanted.
function nodesOf(text, most = LONGEST) {
    if (text.length > most) {
        return [...seenNodes(text.slice(0, cutAt(text, most * 2 / 3))), muted('…'),
            ...seenNodes(text.slice(cutAt(text, text.length - most / 3))),
            muted(' ' + counted(text.length, 'character'))];
    }
    const at = cutAt(text, text.length - TAIL);
    return text.length <= LONG ? seenNodes(text) : [make('span', {class: 'cut',
        title: lineOf(text)}, make('span', {class: 'head'}, seenNodes(text.slice(0, at))),
    make('span', {}, seenNodes(text.slice(at))))];
}

function seenNodes(text) {
    const nodes = [];
    let from = 0;
    for (const found of text.matchAll(UNSEEN)) {
        nodes.push(text.slice(from, found.index),
            make('span', {class: 'unseen'}, codeOf(found[0])));
        from = found.index + found[0].length;
    }
    return [...nodes, text.slice(from)];
}

// The same as one line of text, for titles and labels.
function lineOf(text) {
    const cut = text.length <= LONGEST_TITLE ? text : text.slice(0, LONGEST_TITLE / 2) + '…'
        + text.slice(-LONGEST_TITLE / 2);
    return cut.replace(UNSEEN, character => '[' + codeOf(character) + ']');
}

// An element with attributes and children; a text is only ever a text.
function make(name, attributes = {}, ...children) {
    const element = document.createElement(name);
    for (const [key, value] of Object.entries(attributes)) {
        if (typeof value === 'function') {
            element.addEventListener(key, value);
        } else if (value !== false && value !== undefined) {
            element.setAttribute(key, value === true ? '' : value);
        }
    }
    element.append(...children.flat(3));
    return element;
}

// Text that is set back.
function muted(...children) {
    return make('span', {class: 'muted'}, children);
}

// What stands for a field's word on the page.
function fieldNodes(word, field) {
    if (field === 'who' || field === 'from') {
        return principalNodes(word);
    }
    if (field === 'change') {
        return [make('span', {class: word === '+' ? 'gained' : 'lost'},
            `${word === '-' ? '−' : word} ${CHANGES[word]}`)];
    }
    return word === '-' ? [make('span', {class: 'none'}, EMPTY[field] || '–')]
        : nodesOf(textOf(word));
}

const ACCOUNT = /^u:system:serviceaccount:[^:]+:[^:]+$/;

function isKey(word) {
    return /^[ug]:./.test(word);
}

function kindOf(word) {
    return word.startsWith('g:') ? 'group' : ACCOUNT.test(word) ? 'service account' : 'user';
}

const SHORT_KINDS = {group: 'group', 'service account': 'account', user: 'user'};

// A principal: what kind it is, and its name; a service account without the words that all of them
// share.
function principalNodes(word) {
    const kind = kindOf(word);
    const name = textOf(word).slice(kind === 'service account' ? 'u:system:serviceaccount:'.length
        : 2);
    if (!isKey(word)) {
        return nodesOf(textOf(word));
    }
    return [make('span', {class: 'kind ' + SHORT_KINDS[kind]}, SHORT_KINDS[kind]), ' ',
        make('bdi', {}, nodesOf(name))];
}

// The name of a type as one writes it in a question: deployments.apps, pods, /metrics.
function typeOf(group, resource) {
    return textOf(resource) + (group === '-' ? '' : '.' + textOf(group));
}
