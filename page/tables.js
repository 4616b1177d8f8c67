// Tables that draw only what is seen: between two spacers that are as large as all that isn't
// drawn.

const ROW_HEIGHT = 28;   // as in page.css
const CELL_WIDTH = 74;   // as in page.css
const BEYOND = 8;        // how many rows or columns are drawn past the edges
const HIGHEST = 15e6;    // how high a table is at most: browsers cut what is higher
const NEAR = 2000;       // scrolled by less, a table that is cut moves as far as any other
const SOME = 4;          // and by as many rows where its bar is at an end
const PRINTED = 2000;    // how many rows are printed at most
const ACROSS = 15;       // how many types of a grid fit on a sheet of paper

const sheets = new Set();

// Which of `count` things of this size are seen, or nearly.
function seen(from, room, size, count) {
    const first = Math.max(0, Math.floor(from / size) - BEYOND);
    return [Math.min(first, count), Math.min(count, Math.ceil((from + room) / size) + BEYOND)];
}

// A scrolling table: `heads` are its header cells, and `draw` gives the cells of the row at a
// place.
class Sheet {
    constructor(label, heads, draw, className = '') {
        this.draw = draw;
        this.count = 0;
        this.drawn = '';
        this.body = make('tbody');
        this.head = make('tr', {'aria-rowindex': 1}, heads);
        this.table = make('table', {class: className, 'aria-label': label},
            make('thead', {}, this.head), this.body);
        this.more = make('p', {class: 'only-printed'});
        this.element = make('div', {class: 'sheet', tabindex: 0, role: 'region',
            'aria-label': label}, this.table, this.more);
        this.element.addEventListener('scroll', () => this.scrolled());
        sheets.add(this);
    }

    show(count) {
        this.count = count;
        this.drawn = '';
        this.table.setAttribute('aria-rowcount', count + 1);
        this.element.scrollTop = this.barAt = this.firstRow = 0;
        this.redraw();
    }

    get isCut() {
        return this.count * ROW_HEIGHT > HIGHEST;
    }

    // Finds the first row in view of a table that is cut: after a small step the row that is as far, and
    // otherwise the one that is as far down as the bar.
    scrolled() {
        const step = this.element.scrollTop - this.barAt;
        if (this.isCut && Math.abs(step) >= 1) {
            const room = this.element.clientHeight - this.head.offsetHeight;
            const last = this.count - Math.floor(room / ROW_HEIGHT);
            const end = HIGHEST - room;
            const wanted = Math.abs(step) < NEAR ? this.firstRow + this.rowsOfStep(step, end)
                : Math.round(this.element.scrollTop / end * last);
            this.firstRow = Math.max(0, Math.min(last, wanted));
            // (at its ends the bar stands for the first row and the last ones alone)
            this.element.scrollTop = this.firstRow === 0 ? 0 : this.firstRow === last ? end + 1
                : Math.max(1, Math.min(end - 2, Math.round(this.firstRow / last * end)));
            this.barAt = this.element.scrollTop;
        }
        this.redraw();
    }

    // How many rows a small step is: some also where the bar could go no further.
    rowsOfStep(step, end) {
        const rows = Math.sign(step) * Math.max(1, Math.abs(Math.trunc(step / ROW_HEIGHT)));
        return this.element.scrollTop < 1 ? Math.min(rows, -SOME)
            : this.element.scrollTop > end - 1 ? Math.max(rows, SOME) : rows;
    }

    // The first row to be drawn, the one after the last, and the heights before and after these.
    inView(isPrinted) {
        const {scrollTop, clientHeight} = this.element;
        if (isPrinted) {
            return [0, Math.min(this.count, PRINTED), 0, 0];
        }
        const [first, end] = this.isCut
            ? [this.firstRow, Math.min(this.count, this.firstRow + Math.ceil(clientHeight / ROW_HEIGHT))]
            : seen(scrollTop, clientHeight, ROW_HEIGHT, this.count);
        const before = this.isCut ? this.barAt : first * ROW_HEIGHT;
        const height = Math.min(HIGHEST, this.count * ROW_HEIGHT);
        return [first, end, before, Math.max(0, height - before - (end - first) * ROW_HEIGHT)];
    }

    // Draws the rows in view, or, to print, all from the first one on.
    redraw(isPrinted = false) {
        const [first, end, before, after] = this.inView(isPrinted);
        this.more.textContent = isPrinted ? this.leftOut(end) : '';
        const range = `${first} ${end} ${this.columnsInView(isPrinted)}`;
        if (range === this.drawn) {
            return;
        }
        this.drawn = range;
        const focused = this.body.contains(document.activeElement)
            ? document.activeElement.getAttribute('href') : null;
        const rows = [];
        for (let at = first; at < end; at++) {
            rows.push(make('tr', {'aria-rowindex': at + 2, class: at % 2 ? 'odd' : false},
                this.draw(at)));
        }
        this.body.replaceChildren(spacer(before), ...rows, spacer(after));
        if (focused !== null) {
            const links = [...this.body.querySelectorAll('a')];
            links.find(it => it.getAttribute('href') === focused)?.focus({preventScroll: true});
        }
    }

    columnsInView() {
        return '';
    }

    // What a print lacks.
    leftOut(end) {
        return end === this.count ? '' : counted(this.count - end, 'more row') + ' of '
            + figure(this.count) + ' aren’t printed: filter them, or look into the page itself. ';
    }
}

function spacer(height) {
    const row = make('tr', {class: 'spacer', 'aria-hidden': 'true'}, make('td'));
    row.style.height = height + 'px';
    return row;
}

// A sheet with many narrow columns, of which it draws those in view alone. `corner` is the first
// header cell, `top` gives that of a column, `side` that of a row, and `cell` the cell of both.
class Grid extends Sheet {
    constructor(label, corner, top, side, cell) {
        super(label, [], at => [side(at), gap(this.before),
            this.span(column => cell(at, column)), gap(this.after)], 'grid');
        this.corner = corner;
        this.top = top;
        this.columns = 0;
    }

    showGrid(rows, columns) {
        this.columns = columns;
        this.table.setAttribute('aria-colcount', columns + 1);
        this.element.scrollLeft = 0;
        this.show(rows);
    }

    columnsInView(isPrinted) {
        const {scrollLeft, clientWidth} = this.element;
        [this.from, this.to] = seen(scrollLeft, clientWidth, CELL_WIDTH, this.columns);
        if (isPrinted) {
            this.from = Math.floor(scrollLeft / CELL_WIDTH);
            this.to = Math.min(this.columns, this.from + ACROSS);
        }
        this.before = this.from;
        this.after = this.columns - this.to;
        const range = `${this.from} ${this.to}`;
        if (this.top && (range !== this.headed || this.drawn === '')) {
            this.headed = range;
            this.head.replaceChildren(this.corner, gap(this.before), ...this.span(this.top),
                gap(this.after));
        }
        return range;
    }

    leftOut(end) {
        const columns = Math.min(this.columns, ACROSS);
        return super.leftOut(end) + (columns === this.columns ? '' : columns + ' of '
            + counted(this.columns, 'type') + ' are printed: filter the types, or scroll to the '
            + 'first one to be printed.');
    }

    span(draw) {
        const cells = [];
        for (let column = this.from; column < this.to; column++) {
            const cell = draw(column);
            cell.setAttribute('aria-colindex', column + 2);
            cells.push(cell);
        }
        return cells;
    }
}

// A cell in place of columns that aren't drawn.
function gap(columns) {
    const cell = make('td', {class: 'gap', 'aria-hidden': 'true'});
    cell.style.minWidth = cell.style.width = columns * CELL_WIDTH + 'px';
    return cell;
}

function redrawAll(isPrinted) {
    for (const sheet of sheets) {
        if (sheet.element.isConnected) {
            sheet.drawn = '';
            sheet.redraw(isPrinted);
        }
    }
}

window.addEventListener('resize', () => redrawAll(false));
window.addEventListener('beforeprint', () => redrawAll(true));
window.addEventListener('afterprint', () => redrawAll(false));

// A short table that stands whole in the text: its first `most` rows, and a button for the next
// ones.
function plainTable(label, heads, items, draw, most = 100) {
    const body = make('tbody');
    const button = make('button', {type: 'button', click: () => more()});
    let shown = 0;
    function more() {
        body.append(...items.slice(shown, shown + most)
            .map(item => make('tr', {}, draw(item).map(cell => make('td', {}, cell)))));
        shown = Math.min(items.length, shown + most);
        button.textContent = `Show ${Math.min(most, items.length - shown)} more of `
            + figure(items.length);
        button.hidden = shown === items.length;
    }
    more();
    const head = make('tr', {}, heads.map(head => make('th', {scope: 'col'}, head)));
    return [make('table', {class: 'plain', 'aria-label': label}, make('thead', {}, head), body),
        button];
}
