// The page that `./run view` makes. It reads what the program says from the data beside it, applies the changes of each line, as `explain` tells
// them, to the state at boot, and shows the state at the chosen line. No text of the data is ever read as HTML. docs/VIEW.md has the data.
"use strict";

// ---- Elements, texts, data ---------------------------------------------------------------------------------------------------------------

const element = name => document.getElementById(name);

/** A new element of a class, with elements and texts in it. */
function made(tag, kind, ...inside) {
    const it = document.createElement(tag);
    if (kind) it.className = kind;
    it.append(...inside);
    return it;
}

/** Gives an element what is to be in it. What is as it was stays, and so isn't laid out again. */
function fill(it, ...inside) {
    inside.forEach((node, at) => {
        const old = it.childNodes[at];
        if (!old) it.append(node);
        else if (!old.isEqualNode(node)) old.replaceWith(node);
    });
    while (it.childNodes.length > inside.length) it.lastChild.remove();
}

/** A text that is clicked like a link. */
function link(text, act) {
    const it = made("button", "link", text);
    it.type = "button";
    it.addEventListener("click", act);
    return it;
}

/** A text with a sign for each control character, and with the number of each that would turn the direction of what is beside it. */
const plain = text =>
    text
        .replace(/[\0-\x1f\x7f]/g, it => String.fromCharCode(it === "\x7f" ? 0x2421 : 0x2400 + it.charCodeAt(0)))
        .replace(/[\u200e\u200f\u202a-\u202e\u2066-\u2069]/g, it => `\\u${it.charCodeAt(0).toString(16)}`);

const hex = number => `0x${number.toString(16)}`;
const several = (count, what) => `${count} ${what}${count === 1 ? "" : "s"}`;

const data = name => element(`data-${name}`)?.textContent ?? "";
const linesOf = text => text.split("\n").filter(line => line !== "");
/** The objects of a report: one a line. */
const objects = name => linesOf(data(name)).map(line => JSON.parse(line));
/** What is in base64, as a text with a character for each byte. */
const bytes = name => atob(data(name).trim());

// ---- An explanation ----------------------------------------------------------------------------------------------------------------------

/** What a change or a look is of, without its page: `host`, `guest 0`, `vm 0 vcpu 1`. */
const holderOf = it => it.what + (it.slot === undefined ? "" : ` ${it.slot}`) + (it.vcpu === undefined ? "" : ` vcpu ${it.vcpu}`);
const placeOf = it => holderOf(it) + (it.page === undefined ? "" : ` ${it.page}`) + (it.last === undefined ? "" : `..${it.last}`);

function replyOf(it) {
    if (it.entry !== undefined) return `${it.reply} entry ${it.entry}`;
    if (it.owner !== undefined) return `${it.reply} owner ${it.owner} lent ${it.lent} use ${it.use}`;
    if (it.vm !== undefined) return `${it.reply} vm ${it.vm}`;
    return it.frame === undefined ? it.reply : `${it.reply} frame ${it.frame}`;
}

/** The lines of an explanation, by the type of their objects, as `explain` writes them; of a fault's place without the file and the line. */
const FORMS = {
    boot: it => `boot host ${it.host} hyp ${it.hyp} free ${it.free}`,
    word: it => `word ${it.word}`,
    free: it => `free ${it.free}`,
    run: it => `run ${it.page} ${it.count} ${it.entry}`,
    fault: it => `fault ${it.fault}`,
    place: it => `column ${it.column}: fault ${it.fault}: found ${it.found}, wanted ${it.wanted}`,
    reply: it => replyOf(it) + (it.why === undefined ? "" : `: ${it.why}`),
    change: it => `${placeOf(it)}: ${it.before} -> ${it.after}`,
    look: it => `${placeOf(it)}: ${it.value}`,
};
const lineOf = it => (FORMS[it.type] ?? (() => (it.text ?? it.hexadecimal).trim()))(it);

/** Whether an object is told of a line, and isn't that line itself: it is indented by four spaces. */
function isTold(it) {
    if (it.type === "call") return false;
    if (it.type === "trace") return it.text.startsWith("    ");
    if (it.type === "place") return it.file.startsWith("    ");
    return it.type !== "bytes" || it.hexadecimal.startsWith("20202020");
}

/** What an explanation tells of each line, as far as it goes. A line that itself begins with four spaces has a fault: it comes third from the end,
 *  before the fault and its place. */
function toldOf(report, lines) {
    const told = [];
    for (let at = 0; at < report.length; ) {
        const from = ++at;
        const isSpaced = (lines[told.length + 1] ?? "").startsWith("    ");
        while (at < report.length && isTold(report[at]) && !(isSpaced && at === report.length - 3)) at++;
        told.push(report.slice(from, at));
    }
    return told;
}

const isChange = it => it.type === "change";
/** The number that a form finds in a text, if it does. */
const numberIn = (form, text) => (form.test(text ?? "") ? Number(form.exec(text)[1]) : undefined);

/** Adds to a change or a look where it is kept: a fact's name, or a map's with numbers of pages, and the first frame, if it maps one. */
function prepare(it, cpu) {
    if (it.page === undefined) {
        it.fact = ["loaded", "hand", "ticket"].includes(it.what) ? `cpu ${cpu} ${it.what}` : holderOf(it);
        return it;
    }
    it.map = holderOf(it);
    it.first = Number(it.page);
    it.count = it.last === undefined ? 1 : Number(it.last) - it.first + 1;
    if (it.what === "hyp") it.frame = it.first - HYP_PAGE;
    else if (it.what !== "guest") it.frame = it.first;
    else it.frame = numberIn(/leaf (0x[0-9a-f]+)/, [it.after, it.before, it.value, it.kept, it.walked].join(" "));
    return it;
}

// ---- States ------------------------------------------------------------------------------------------------------------------------------

const HYP_PAGE = 0x4000000; // the hypervisor's page of frame f is f + HYP_PAGE
const NOTHING = "unmapped";

/** What is told of the place `by` behind one with this text: a leaf's frame and a loan's page go on with the places. */
function moved(text, by) {
    if (by === 0 || !(text.startsWith("leaf") || text.includes(":"))) return text;
    return text.replace(/^(leaf |owner \d+ lent \d+:)(0x[0-9a-f]+)/, (_, head, at) => head + hex(Number(at) + by));
}

/** A map as its runs, by place: each has its first place, how many places it has, and the text of the first. No run changes, so copies share them. */
class Runs {
    constructor(runs = []) {
        this.runs = runs;
    }

    /** The number of the first run that ends behind a place. */
    seek(place) {
        let low = 0;
        for (let high = this.runs.length; low < high; ) {
            const middle = (low + high) >> 1;
            if (this.runs[middle].first + this.runs[middle].count > place) high = middle;
            else low = middle + 1;
        }
        return low;
    }

    at(place) {
        const run = this.runs[this.seek(place)];
        return run && run.first <= place ? moved(run.text, place - run.first) : NOTHING;
    }

    /** Whether all of these places have a text, that of the first. */
    isAll(first, count, text) {
        const run = this.runs[this.seek(first)];
        if (text === NOTHING) return !run || run.first >= first + count;
        return this.at(first) === text && run.first + run.count >= first + count;
    }

    /** Gives these places a text, that of the first, and joins runs that go on. */
    put(first, count, text) {
        const end = first + count;
        const from = Math.max(0, this.seek(first) - 1);
        const now = [];
        const add = (first, count, text) => {
            const last = now.at(-1);
            if (count <= 0 || text === NOTHING) return;
            if (last && last.first + last.count === first && moved(last.text, last.count) === text) now.splice(-1, 1, { ...last, count: last.count + count });
            else now.push({ first, count, text });
        };
        // The runs at these places and beside them; of each what is before and behind is left.
        let to = from;
        while (to < this.runs.length && this.runs[to].first <= end) to++;
        const old = this.runs.slice(from, to);
        for (const run of old) add(run.first, Math.min(run.count, first - run.first), run.text);
        add(first, count, text);
        for (const run of old) {
            const begin = Math.max(run.first, end);
            add(begin, run.first + run.count - begin, moved(run.text, begin - run.first));
        }
        this.runs.splice(from, old.length, ...now);
    }
}

/** A state: maps by name (`host`, `hyp`, `guest 0`, and `owner` with the owner rows), and facts by name. */
class State {
    constructor(maps, facts) {
        this.maps = maps;
        this.facts = facts;
    }

    copy() {
        return new State(new Map([...this.maps].map(([name, { runs }]) => [name, new Runs(runs.slice())])), new Map(this.facts));
    }

    map(name) {
        if (!this.maps.has(name)) this.maps.set(name, new Runs());
        return this.maps.get(name);
    }

    /** Applies a change. False where something else was there than the change says. */
    apply(it) {
        if (it.map === undefined) {
            const was = this.facts.get(it.fact);
            this.facts.set(it.fact, it.after);
            return was === undefined || was === it.before;
        }
        const fits = this.map(it.map).isAll(it.first, it.count, it.before);
        this.map(it.map).put(it.first, it.count, it.after);
        return fits;
    }
}

/** The state at boot: the owner rows by `draw --text`, the trees by `show host` and `show hyp`, and the free frames of the shared pool. */
function atBoot(free) {
    const state = new State(new Map(), new Map([["free shared", String(free)]]));
    for (const line of linesOf(data("rows"))) {
        const [, first, count, text] = /^rows (\S+) (\d+) (.*)$/.exec(line) ?? [];
        if (first) state.map("owner").put(Number(first), Number(count), text);
    }
    let tree;
    for (const it of objects("trees"))
        if (it.type === "trace") tree = state.map(it.text.replace("show ", ""));
        else if (it.type === "run") tree.put(Number(it.page), it.count, it.entry);
    return state;
}

// ---- Signs of owners ---------------------------------------------------------------------------------------------------------------------

const letterOf = owner => (owner === 0 ? "H" : owner === 1 ? "E" : String(owner - 2));
const nameOf = owner => (owner === 0 ? "the host" : owner === 1 ? "the hypervisor" : `guest ${owner - 2}`);
const colourOf = owner => (owner === 0 ? "host" : owner === 1 ? "hyp" : `guest${(owner - 2) % 8}`);

const DEVICE = { code: "D", words: "a device's", colour: "device" };
const NOBODY = { code: "-", words: "no memory", colour: "none" };
const kinds = new Map(); // what is told of owner rows, by their text without the page of a loan

/** An owner row: its code in the picture, words for it, the owner's colour, and a mark in the colour of who else has to do with it. */
function kindOf(row) {
    const text = row.replace(/:0x[0-9a-f]+/, "");
    if (!kinds.has(text)) kinds.set(text, newKind(text));
    return kinds.get(text);
}

function newKind(text) {
    const [, number, lent, use, of] = /^owner (\d+) lent (-|\d+) use (\w+) ?(\d*)$/.exec(text) ?? [];
    if (number === undefined) return NOBODY;
    const owner = Number(number);
    const colour = colourOf(owner);
    const whose = `${nameOf(owner)}'s`;
    const inPool = `${whose}, in guest ${of}'s pool or a table`;
    if (use === "shared_pool") return { code: "P", words: `${whose}, in the shared pool or a table`, colour, mark: "dots" };
    if (use === "vm_pool") return { code: `p${of}`, words: inPool, colour, mark: `bar other-${colourOf(2 + Number(of))}` };
    if (use === "in_hand") return { code: `c${of}`, words: `${whose}, in the hand of CPU ${of}`, colour, mark: "bar other-ink" };
    if (lent === "-") return { code: letterOf(owner), words: whose, colour };
    const to = Number(lent);
    return { code: `${letterOf(owner)}>${letterOf(to)}`, words: `${whose}, lent to ${nameOf(to)}`, colour, mark: `corner other-${colourOf(to)}` };
}

const signOf = kind => made("span", `sign ${kind.colour} ${kind.mark ?? ""}`, kind.code);

// ---- A trace -----------------------------------------------------------------------------------------------------------------------------

const KEEP = 64; // a whole state is kept each so many lines

/** A line: its number, its text, its CPU if it is a step, and what is told of it if it was reached. */
function newLine(number, text, told) {
    const it = { number, text, told: told ?? [], isReached: told !== undefined, cpu: numberIn(/^(0x[0-9a-f]+|\d+) /, text) };
    for (const one of it.told) if (isChange(one) || one.type === "look") prepare(one, it.cpu);
    it.changes = it.told.filter(isChange);
    it.isComment = text === "" || text.startsWith("#");
    it.isExpectation = text.startsWith("#= ");
    return it;
}

/** A trace, and the state at its chosen line. */
class Trace {
    constructor() {
        const texts = bytes("trace").split("\n");
        if (texts.at(-1) === "") texts.pop();
        // A trace is ASCII. Another byte is a fault, and shown by its number.
        this.texts = texts.map(text => plain(text.replace(/[\x80-\xff]/g, it => `\\x${it.charCodeAt(0).toString(16)}`)));
        const told = toldOf(objects("explain"), this.texts);
        this.plain = this.texts.map((text, at) => newLine(at + 1, text, told[at]));
        this.start = this.texts.indexOf("start");
        this.poke = this.texts.findIndex(text => text.startsWith("poke"));
        this.audit = objects("audit").map(it => (it.type === "disagree" && it.page ? prepare(it) : it));
        this.check = objects("check");
        this.outcomes = objects("outcomes");
        this.said = new Map(); // what `check` and `audit` say of lines, by their numbers
        for (const it of this.check) if (it.line !== undefined) this.say(it.line, missOf(it));
        for (const it of [...this.audit, ...this.outcomes]) if (it.type === "fault") this.say(it.line, `fault ${it.fault}`);
        // An outcome without replies, as where there is only one, is told as a text.
        const all = this.outcomes.map(it => it.order ?? /^outcome order ?(.*)$/.exec(it.text ?? "")?.[1]);
        const orders = all.filter(it => it !== undefined).map(it => it.split(" ").filter(it => it).map(Number));
        const replies = this.outcomes.filter(it => it.type === "outcome").map(it => it.replies);
        this.orders = orders.filter((_, at) => element(`data-order${at + 1}`)).map((order, at) => ({ order, replies: replies[at] ?? "the only one", at }));
        this.left = orders.length - this.orders.length;
        this.lanes = [...new Set(orders[0]?.map(number => this.plain[number - 1].cpu))].sort((a, b) => a - b);
        this.choose(0);
    }

    say(number, text) {
        this.said.set(number, [...(this.said.get(number) ?? []), text]);
    }

    /** The lines up to `start`, and those behind it in an outcome's order: each step with the comments before it and its expectations after it. */
    linesIn({ order, at }) {
        const told = toldOf(objects(`order${at + 1}`), []);
        const groups = new Map(); // of each step the places of its lines
        let group = [];
        for (let at = this.start + 1; at < this.texts.length; at++) {
            group.push(at);
            if (!order.includes(at + 1)) continue;
            while (this.texts[at + 1]?.startsWith("#=")) group.push(++at);
            groups.set(group.find(at => order.includes(at + 1)) + 1, group);
            group = [];
        }
        const line = (at, told) => newLine(at + 1, this.texts[at], told);
        const behind = order.flatMap((number, step) => groups.get(number).map(at => line(at, at + 1 === number ? told[step] : undefined)));
        return [...this.plain.slice(0, this.start + 1), ...behind, ...group.map(at => line(at))];
    }

    /** Takes the lines in an outcome's order, if there are outcomes, and goes through them once: states are kept, and what doesn't fit is found. */
    choose(outcome) {
        this.outcome = outcome;
        this.lines = this.orders.length ? this.linesIn(this.orders[outcome]) : this.plain;
        this.boot = this.lines.findIndex(it => it.told.some(it => it.type === "boot"));
        this.kept = [];
        this.wrong = [];
        this.state = undefined;
        this.lines.forEach((it, at) => {
            this.carry(it, change => this.wrong.push({ it, change }));
            if (at === this.boot) this.arrange();
            if (at % KEEP === 0) this.kept.push(this.state?.copy());
        });
        this.at = this.lines.length - 1;
    }

    /** Applies what is told of a line. */
    carry(it, tell = () => {}) {
        for (const one of it.told)
            if (one.type === "boot") this.state = atBoot(one.free);
            else if (isChange(one) && !this.state?.apply(one)) tell(one);
    }

    /** Goes to a line: from where it is, or from the last state that was kept before it. */
    go(at) {
        const from = at - (at % KEEP);
        if (at < this.at || from > this.at) {
            this.state = this.kept[from / KEEP]?.copy();
            this.at = from;
        }
        while (this.at < at) this.carry(this.lines[++this.at]);
    }

    /** Arranges the picture: the regions of memory, by the rows at boot, and those of devices, by the trace, each with its first place there. */
    arrange() {
        this.rows = new Runs(this.state.map("owner").runs.slice());
        const settings = this.texts.slice(0, this.boot).map(text => text.split(" "));
        this.cpus = Number(settings.find(([word]) => word === "cpus")?.[1] ?? 1);
        this.rootLevel = Number(settings.find(([word]) => word === "geometry")?.[1] ?? 39) === 48 ? 0 : 1;
        const devices = settings.filter(([word]) => word === "device");
        this.devices = devices.map(([, first, count]) => ({ first: Number(first), count: Number(count), isDevice: true }));
        this.regions = [];
        for (const { first, count } of this.rows.runs) {
            const last = this.regions.at(-1);
            if (last && last.first + last.count === first) last.count += count;
            else this.regions.push({ first, count });
        }
        this.regions = [...this.regions, ...this.devices].sort((a, b) => a.first - b.first);
        this.pages = 0;
        for (const region of this.regions) {
            region.at = this.pages;
            this.pages += region.count;
        }
    }
}

/** What `check` says of a line. */
function missOf(it) {
    if (it.type === "stray") return `no expectation: found \`${it.found}\`, wanted ${it.wanted}`;
    if (it.type === "place") return lineOf(it);
    if (it.fault !== undefined) return `unexpected fault ${it.fault}`;
    return [it.expected === undefined ? "" : `expected ${it.expected}`, it.got === undefined ? "" : `got ${it.got}`, it.why].filter(part => part).join(", ");
}

// ---- The list on the left ----------------------------------------------------------------------------------------------------------------

const CHUNK = 100; // rows of an element of the list; they are built once they are near to what is seen

/** The list: how many rows it has, its elements, and which row is chosen and which a search found. `show` shows what is chosen, `row` makes a row,
 *  and `text` has what is searched in one. */
const list = { count: 0, chunks: [], here: 0, hits: [], show: () => {}, row: () => {}, text: () => "" };
const NEAR = { root: element("lines"), rootMargin: "200% 0px" };
const near = new IntersectionObserver(seen => seen.forEach(it => it.isIntersecting && build(it.target)), NEAR);

/** Begins a list: with elements as high as their rows will be, more or less. Rows that aren't needed at once are built while nothing else is done, so
 *  that the browser's own search finds them. */
function fillList(count, row, text) {
    near.disconnect();
    const chunks = Array.from({ length: Math.ceil(count / CHUNK) }, (_, at) => {
        const chunk = made("div", "chunk");
        chunk.setAttribute("role", "presentation");
        const height = `${Math.min(CHUNK, count - at * CHUNK) * 1.54}rem`;
        Object.assign(chunk.style, { minHeight: height, containIntrinsicSize: `auto ${height}` });
        return chunk;
    });
    element("lines").replaceChildren(...chunks);
    Object.assign(list, { count, chunks, row, text, texts: undefined, here: 0, left: chunks.slice() });
    chunks.forEach(it => near.observe(it));
    search();
    later(buildNext);
}

const later = window.requestIdleCallback ?? (act => setTimeout(act, 50));

/** Builds what is left, an element at a time. */
function buildNext() {
    const { left } = list;
    while (left.length && left[0].firstChild) left.shift();
    if (!left.length) return;
    build(left.shift());
    later(buildNext);
}

/** Builds the rows of an element. */
function build(chunk) {
    const from = list.chunks.indexOf(chunk) * CHUNK;
    if (chunk.firstChild || from < 0) return;
    near.unobserve(chunk);
    const rows = Array.from({ length: Math.min(CHUNK, list.count - from) }, (_, at) => {
        const row = list.row(from + at);
        row.id = `row-${from + at}`;
        row.dataset.at = from + at;
        row.setAttribute("role", "option");
        row.setAttribute("aria-setsize", list.count);
        row.setAttribute("aria-posinset", from + at + 1);
        return row;
    });
    chunk.append(...rows);
    chunk.style.minHeight = "";
    for (const at of list.hits) if (at >= from && at < from + rows.length) rows[at - from].classList.add("hit");
}

/** A row, by its place from 0 on: it is built if it wasn't. */
function rowAt(at) {
    const chunk = list.chunks[Math.floor(at / CHUNK)];
    build(chunk);
    return chunk.children[at % CHUNK];
}

/** Chooses a row of the list, by its place. */
function go(at) {
    if (!list.count) return;
    rowAt(list.here).removeAttribute("aria-selected");
    list.here = Math.max(0, Math.min(at, list.count - 1));
    const row = rowAt(list.here);
    row.setAttribute("aria-selected", "true");
    row.scrollIntoView({ block: "nearest" });
    element("lines").setAttribute("aria-activedescendant", row.id);
    element("live").textContent = [...row.children].map(it => it.textContent).join(" ");
    list.show(list.here);
}

/** Goes to the next of some places behind the chosen one, or to the one before; at the end it begins again. */
function leap(places, by) {
    const to = by > 0 ? (places.find(it => it > list.here) ?? places[0]) : (places.findLast(it => it < list.here) ?? places.at(-1));
    if (to !== undefined) go(to);
}

/** Marks the rows that have the text of the search. What is searched is put together once somebody searches. */
function search() {
    const wanted = element("find").value.toLowerCase();
    const mark = (at, isHit) => list.chunks[Math.floor(at / CHUNK)]?.children[at % CHUNK]?.classList.toggle("hit", isHit);
    for (const at of list.hits) mark(at, false);
    if (wanted) list.texts ??= Array.from({ length: list.count }, (_, at) => list.text(at).toLowerCase());
    list.hits = wanted ? [...list.texts.keys()].filter(at => list.texts[at].includes(wanted)) : [];
    for (const at of list.hits) mark(at, true);
    element("found").textContent = wanted ? several(list.hits.length, "line") : "";
}

/** The keys of each page: names of the browser's, the name that is shown, words, and what they do. */
const KEYS = [
    [["ArrowDown", "j"], "↓ j", "the next line", () => go(list.here + 1)],
    [["ArrowUp", "k"], "↑ k", "the line before", () => go(list.here - 1)],
    [["PageDown"], "Page ↓", "ten lines on", () => go(list.here + 10)],
    [["PageUp"], "Page ↑", "ten lines back", () => go(list.here - 10)],
    [["Home"], "Home", "the first line", () => go(0)],
    [["End"], "End", "the last line", () => go(list.count - 1)],
    [["/"], "/", "search; Enter: the next line found, Shift Enter: the one before, Escape: leave", () => element("find").select()],
    [["n"], "n", "the next line found", () => leap(list.hits, 1)],
    [["N"], "N", "the one before", () => leap(list.hits, -1)],
    [["s"], "s", "scroll what is beside the lines down", () => element("state").scrollBy(0, element("state").clientHeight * 0.8)],
    [["S"], "S", "scroll it up", () => element("state").scrollBy(0, element("state").clientHeight * -0.8)],
    [["?"], "?", "these keys", () => element("help").showModal()],
];

/** Makes keys and the list do what they are for. A field that a text is written to keeps its keys, the slider ← and →. */
function listen(keys) {
    const acts = new Map(keys.flatMap(([names, , , act]) => names.map(name => [name, act])));
    document.addEventListener("keydown", event => {
        const { target, key, shiftKey } = event;
        if (event.ctrlKey || event.altKey || event.metaKey || element("help").open) return;
        if (target.matches("select, input:not([type=range])")) {
            if (key === "Escape" || (key === "Enter" && target.id !== "find")) target.blur();
            else if (key === "Enter") leap(list.hits, shiftKey ? -1 : 1);
            return;
        }
        const act = acts.get(shiftKey && key.startsWith("Arrow") ? `Shift+${key}` : key);
        if (!act || (target.id === "slider" && (key === "ArrowLeft" || key === "ArrowRight"))) return;
        event.preventDefault();
        act();
    });
    element("lines").addEventListener("click", event => {
        const row = event.target.closest("button") ? null : event.target.closest(".line");
        if (row) go(Number(row.dataset.at));
    });
    element("find").addEventListener("input", search);
    element("keys").addEventListener("click", () => element("help").showModal());
    const table = made("table", "", ...keys.map(([, name, words]) => made("tr", "", made("th", "", made("kbd", "", name)), made("td", "", words))));
    element("help").append(made("h2", "", "Keys ", link("Close (Escape)", () => element("help").close())), table);
}

// ---- The lines of a trace ----------------------------------------------------------------------------------------------------------------

let trace; // the trace that is shown
let page = 0; // the chosen page: a frame
let lit = []; // what the chosen line changed

/** A line's row: number, lane, text, reply, how much it changed, and what `check` and `audit` say. */
function rowOfLine(it, at) {
    const said = trace.said.get(it.number) ?? [];
    const row = made("div", "line", made("span", "number", String(it.number)));
    if (trace.orders.length && trace.lanes.length <= 16) row.append(laneOf(it, at));
    if (it.isComment) row.classList.add("comment");
    else if (!it.isReached) row.classList.add(it.text.startsWith("poke") ? "poke" : "passed");
    if (it.isExpectation && said.length) row.append(made("span", "mark bad", "✗"));
    else if (it.isExpectation && trace.check.some(it => it.type === "checked")) row.append(made("span", "mark good", "✓"));
    row.append(made("span", "text", it.text));
    const [first, ...more] = it.told.filter(it => !["change", "look", "place"].includes(it.type));
    if (first) {
        const isBad = first.type === "fault" || (first.type === "reply" && !/^ok\b/.test(first.reply));
        const text = first.type === "reply" ? replyOf(first) : lineOf(first);
        const reply = made("span", isBad ? "reply bad" : "reply", more.length ? `${text} and ${more.length} more` : text);
        row.append(made("span", "right", reply, " ", made("span", "changes", it.changes.length ? `Δ${it.changes.length}` : "")));
    }
    row.append(...said.map(text => made("span", "miss bad", `✗ ${text}`)));
    return row;
}

/** The lanes of CPUs behind `start`: a column for each, with its number where the line is its own. */
function laneOf(it, at) {
    const lanes = trace.lanes.map(cpu => {
        if (at <= trace.start) return made("i", "", at === trace.start ? String(cpu) : "");
        return cpu === it.cpu ? made("i", "lane on", String(cpu)) : made("i", "lane");
    });
    return made("span", "lanes", ...lanes);
}

/** Builds the list of lines, and says what is to be said of the whole. */
function showLines() {
    const textOf = it => [it.text, ...it.told.map(lineOf), ...(trace.said.get(it.number) ?? [])].join("\n");
    fillList(trace.lines.length, at => rowOfLine(trace.lines[at], at), at => textOf(trace.lines[at]));
    element("slider").max = Math.max(0, trace.lines.length - 1);
    element("verdict").replaceChildren(...verdict());
}

/** What is to be said of the whole trace: what doesn't fit, its fault, the audit's difference, what it misses, and outcomes that aren't shown. */
function verdict() {
    const said = [];
    const say = (kind, text, act) => said.push(made("li", kind, act ? link(text, act) : text));
    const goTo = number => () => go(trace.lines.findIndex(it => it.number === number));
    for (const { it, change } of trace.wrong.slice(0, 5))
        say("bad", `✗ the data of this page don't fit together: line ${it.number}: ${lineOf(change)}, but something else was there`, goTo(it.number));
    for (const it of trace.lines) for (const one of it.told) if (one.type === "fault") say("bad", `✗ line ${it.number}: ${lineOf(one)}`, goTo(it.number));
    for (const it of trace.outcomes) {
        if (it.type === "fault") say("bad", `✗ outcomes: line ${it.line}: fault ${it.fault}. What follows is the trace's order`, goTo(it.line));
        if (it.type === "too_many") say("bad", `✗ outcomes: too many after ${several(it.steps, "step")}. What follows is the trace's order`);
    }
    for (const it of trace.audit) {
        const show = it.frame === undefined ? undefined : () => choosePage(it.frame, list.count - 1);
        if (it.type === "disagree") say("bad", `✗ audit: ${disagreementOf(it)}`, show);
        if (it.type === "fault") say("bad", `✗ audit: line ${it.line}: fault ${it.fault}`, goTo(it.line));
        if (it.type === "end" && it.disagreements === 0) say("good", "✓ audit: no difference");
    }
    const [miss] = trace.said.keys();
    for (const it of trace.check) {
        if (it.type === "checked" && it.wrong > 0) say("bad", `✗ ${it.wrong} wrong of ${several(it.expected, "expectation")}`, goTo(miss));
        if (it.type === "checked" && it.wrong === 0 && it.expected > 0) say("good", `✓ ${several(it.expected, "expectation")} met`);
        if (it.type === "remark") say("", it.why);
    }
    if (trace.left) say("", `${several(trace.left, "more outcome")} not shown`);
    if (trace.boot < 0) say("", "no machine boots");
    if (!said.length) say("good", "✓ no fault");
    return said;
}

/** Follows the next link of what is to be said of the whole trace, or the one before: `isAt` marks it. */
function nextFound(by) {
    const links = [...element("verdict").querySelectorAll("button")];
    if (!links.length) return;
    const at = links.findIndex(it => it.classList.contains("isAt"));
    const to = links[(at < 0 && by < 0 ? -1 : at + by + links.length) % links.length] ?? links.at(-1);
    for (const it of links) it.classList.toggle("isAt", it === to);
    to.scrollIntoView({ block: "nearest" });
    to.click();
}

const disagreementOf = it => `disagree ${placeOf(it)}${it.page === undefined ? "" : ` kept ${it.kept} walked ${it.walked}`}`;

/** Shows the chosen line: what is told of it, and the state there. */
function showLine(at) {
    const it = trace.lines[at];
    trace.go(at);
    lit = it.changes;
    element("slider").value = at;
    element("where").textContent = `line ${it.number} of ${trace.texts.length}`;
    const title = made("h2", "", `Line ${it.number} `, made("code", "", it.text));
    const said = (trace.said.get(it.number) ?? []).map(text => made("p", "bad", `✗ ${text}`));
    const isPoked = trace.poke >= 0 && at >= trace.poke;
    const isPassed = !isPoked && !it.isReached && !it.isComment;
    const why = isPoked ? "What a poke does is told by the audit, on top. The state is the one before the first." : isPassed ? "Not reached." : "";
    const textOf = one => (one.frame === undefined ? lineOf(one) : link(lineOf(one), () => choosePage(one.frame)));
    const told = it.told.slice(0, 1000).map(one => made("li", one.type, textOf(one)));
    if (it.told.length > told.length) told.push(made("li", "", `and ${it.told.length - told.length} more`));
    element("step").replaceChildren(title, why, ...said, made("ul", "told", ...told));
    document.body.classList.toggle("unbooted", !trace.state);
    if (!trace.state) return;
    showMap();
    showFacts();
    showTexts();
    showPage();
}

// ---- The picture of memory ---------------------------------------------------------------------------------------------------------------

let span = Infinity; // how many pages the picture shows: a power of two
let width = 0; // how wide it is, in pixels
let cells = []; // its cells, each with what it shows

/** The pages from one place of the picture to before another, as runs of frames. */
const framesOf = (from, to) =>
    trace.regions
        .map(({ first, count, at, isDevice }) => ({ first: first + Math.max(from - at, 0), end: first + Math.min(count, to - at), isDevice }))
        .filter(it => it.first < it.end);

/** The place of a frame in the picture; 0 if it has none. */
function spotOf(frame) {
    const region = trace.regions.find(it => frame >= it.first && frame < it.first + it.count);
    return region ? region.at + frame - region.first : 0;
}

/** How many pages a cell has, how many cells there are for the span, and in how many columns. */
function arrangement() {
    const isWide = width >= 560;
    const each = Math.max(1, span / (isWide ? 512 : 256));
    const count = span / each;
    return { each, count, columns: count > 256 ? 32 : count > 64 ? 16 : count > 16 ? 8 : isWide ? 4 : 2 };
}

/** Shows the part of memory around the chosen page, a cell for each page, or for as many as there are to a cell. */
function showMap() {
    const all = 2 ** Math.ceil(Math.log2(Math.max(16, trace.pages)));
    span = Math.max(16, Math.min(span, all));
    const { each, count, columns } = arrangement();
    const chosen = spotOf(page);
    const from = chosen - (chosen % span);
    const used = Math.min(count, Math.ceil((trace.pages - from) / each));
    const grid = element("cells");
    if (cells.length !== used || grid.dataset.columns !== String(columns)) {
        grid.dataset.columns = columns;
        grid.style.gridTemplateColumns = `max-content repeat(${columns}, minmax(0, 1fr))`;
        grid.className = count > 64 ? "small" : count > 16 ? "middle" : "large";
        cells = Array.from({ length: used }, () => ({ cell: link("", () => {}) }));
        for (const it of cells) {
            it.cell.tabIndex = -1;
            it.cell.addEventListener("click", () => choosePage(it.pick));
        }
        grid.replaceChildren(...cells.flatMap(({ cell }, at) => (at % columns ? [cell] : [made("span", "edge"), cell])));
    }
    const edges = grid.querySelectorAll(".edge");
    cells.forEach((it, at) => {
        const low = from + at * each;
        const parts = framesOf(low, low + each);
        if (at % columns === 0) edges[at / columns].textContent = hex(parts[0].first);
        showCell(it, parts, chosen >= low && chosen < low + each, count <= 16);
    });
    const scale = each === 1 ? "a page" : `${each} pages`;
    element("scale").textContent = `${several(Math.min(span, trace.pages - from), "page")} of ${trace.pages}, ${scale} a cell`;
    element("in").disabled = span === 16;
    element("out").disabled = span === all;
}

/** Shows in a cell the kinds of its pages, whether the chosen line changed some, and whether the chosen page is among them. */
function showCell(it, parts, isChosen, isLarge) {
    const owner = trace.state.map("owner");
    const found = new Map();
    const add = kind => found.set(kind.code, kind);
    for (const { first, end, isDevice } of parts) {
        if (isDevice) add(DEVICE);
        else for (let at = owner.seek(first); at < owner.runs.length && owner.runs[at].first < end; at++) add(kindOf(owner.runs[at].text));
    }
    const changed = ({ first, end }) => lit.filter(it => it.frame < end && first < it.frame + it.count).map(it => Math.max(first, it.frame));
    const hit = parts.flatMap(changed);
    it.pick = hit[0] ?? parts[0].first;
    const name = parts.map(({ first, end }) => hex(first) + (end - first > 1 ? `..${hex(end - 1)}` : "")).join(" ");
    const codes = [...found.keys()].join(" ");
    const key = [name, codes, hit.length > 0, isChosen, isLarge].join();
    if (key === it.key) return;
    it.key = key;
    const words = [...found.values()].map(kind => kind.words).join("; ");
    const signs = [...found.values()].slice(0, isLarge ? 8 : 4).map(signOf);
    const isMixed = found.size > 1 && !isLarge;
    if (isMixed) for (const sign of signs) sign.textContent = "";
    it.cell.className = `cell ${isMixed ? "mixed" : ""} ${hit.length ? "lit" : ""} ${isChosen ? "chosen" : ""}`;
    it.cell.title = `${name}: ${words}${hit.length ? "; changed by this line" : ""}`;
    Object.assign(it.cell.dataset, { pages: name, codes });
    it.cell.replaceChildren(...signs, ...(isLarge ? [made("small", "", name), made("small", "", words)] : []));
}

function zoom(by) {
    span *= by;
    showMap();
}

/** Chooses a page, by its frame, and a line too, if one is given; or, beside it, a page of a tree that maps no frame. */
function choosePage(frame, line, place) {
    if (frame === undefined || frame < 0) return;
    page = frame;
    also = place;
    if (line !== undefined) go(line);
    else if (trace.state) {
        showMap();
        showPage();
    }
}

/** The first page of the next cell of the picture, or of the one before. */
function nextCell(by) {
    const { each } = arrangement();
    const to = (Math.floor(spotOf(page) / each) + by) * each;
    return to < 0 ? undefined : framesOf(to, trace.pages)[0]?.first;
}

/** The first page of the next run of owner rows, or of the one before. */
function nextRun(by) {
    const owner = trace.state.map("owner");
    return owner.runs[owner.seek(page) + by]?.first;
}

/** The next page that the chosen line changed: the first of a range. */
function nextLit() {
    const firsts = lit.map(it => it.frame).filter(it => it !== undefined);
    const behind = firsts.filter(it => it > page);
    return firsts.length ? Math.min(...(behind.length ? behind : firsts)) : undefined;
}

// ---- The chosen page ---------------------------------------------------------------------------------------------------------------------

let also; // a page of a tree that was asked for, and that maps no frame: the tree's name and the page's number

/** Whether a change is of the chosen page. */
const isOfPage = it => isChange(it) && it.frame <= page && page < it.frame + it.count;

/** Whether a page is an input page of a tree: a guest that is Empty has none. */
const isInput = ([name, at]) =>
    at < 512 ** (LAST_LEVEL + 1 - trace.rootLevel) && (!name.startsWith("guest") || (trace.state.facts.get(name) ?? "empty") !== "empty");

/** The pages of all trees that map the chosen frame, or did before this line: each with its tree's name. */
function placesOfPage() {
    const places = [["host", page], ["hyp", page + HYP_PAGE]];
    for (const [name, { runs }] of trace.state.maps) {
        if (!name.startsWith("guest")) continue;
        const mapped = runs.map(({ first, count, text }) => ({ first, count, frame: numberIn(/^leaf (\S+)/, text) }));
        const changed = lit.filter(it => it.map === name);
        const those = [...mapped, ...changed].filter(({ frame, count }) => frame <= page && page < frame + count);
        for (const at of new Set(those.map(({ first, frame }) => first + page - frame))) places.push([name, at]);
    }
    if (also && isInput(also) && !places.some(([name, at]) => name === also[0] && at === also[1])) places.push(also);
    return places;
}

/** Shows what all trees have of the chosen page, its owner row, the words on its paths, and its history. */
function showPage() {
    const places = placesOfPage();
    const isDevice = trace.devices.some(it => page >= it.first && page < it.first + it.count);
    const row = trace.state.map("owner").at(page);
    const kind = isDevice ? DEVICE : kindOf(row);
    const rows = kind === DEVICE || kind === NOBODY ? places : [...places, ["owner", page]];
    const entries = rows.map(([name, at]) => {
        const change = lit.find(it => it.map === name && at >= it.first && at < it.first + it.count);
        const was = change ? [made("del", "", moved(change.before, at - change.first)), " → "] : [];
        return made("tr", change ? "lit" : "", made("th", "", `${name} ${hex(at)}`), made("td", "", ...was, trace.state.map(name).at(at)));
    });
    const wrong = trace.audit.filter(it => it.type === "disagree" && it.frame === page).map(it => made("p", "bad", `✗ audit: ${disagreementOf(it)}`));
    element("goto").value = also ? `${also[0]} ${hex(also[1])}` : hex(page);
    element("kind").replaceChildren(signOf(kind), ` ${kind.words}`);
    fill(element("entries"), ...wrong, made("table", "", ...entries));
    fill(element("words"), ...places.filter(isInput).map(([name, at]) => wordsOf(name, at)));
    showHistory();
}

/** Chooses what was written: a frame, or a page of a tree, as `hyp 0x4040100` or `guest 0 0x80000`; of a page that maps no frame the tree's words. */
function chooseWritten() {
    const [, tree, number] = /^\s*(?:(host|hyp|guest \d{1,2})\s+)?(0x[0-9a-f]{1,13}|\d{1,15})\s*$/i.exec(element("goto").value) ?? [];
    const [name, at] = [tree?.toLowerCase() ?? "host", Number(number)];
    if (number === undefined || !trace.state) return;
    const frame = prepare({ what: name.split(" ")[0], page: number, value: trace.state.maps.get(name)?.at(at) }).frame;
    if (frame >= 0) choosePage(frame);
    else choosePage(page, undefined, [name, at]);
}

const PART = 30; // of a long history twice as many lines are shown, around the chosen one

/** The history of the chosen page: each line that changed something of it, with who owned it from then on. It is found once for each page. */
let history = { lines: [] };

function findHistory() {
    let row = trace.rows.at(page);
    history = { page, of: trace.lines, lines: [] };
    trace.lines.forEach((it, at) => {
        const changes = it.changes.filter(isOfPage);
        for (const change of changes) if (change.map === "owner") row = moved(change.after, page - change.frame);
        if (at === trace.boot || changes.length) history.lines.push({ it, at, row, changes });
    });
}

/** Shows the history, with a mark at the last of its lines that isn't behind the chosen one. */
function showHistory() {
    if (history.page !== page || history.of !== trace.lines) findHistory();
    const { lines } = history;
    const now = lines.findLastIndex(({ at }) => at <= list.here);
    const from = Math.max(0, now - (now % PART) - PART / 2);
    const shown = lines.slice(from, from + 2 * PART);
    const key = [from, shown.length].join();
    const box = element("history");
    // The same lines stay, and only the mark moves.
    if (history.key !== key || history.box !== box.firstChild) {
        const more = (count, where) => (count ? [made("li", "more", `${several(count, "line")} ${where}`)] : []);
        history.rows = shown.map(historyLine);
        box.replaceChildren(...more(from, "before"), ...history.rows, ...more(lines.length - from - shown.length, "after"));
        Object.assign(history, { key, box: box.firstChild });
    }
    box.querySelector("[aria-current]")?.removeAttribute("aria-current");
    const current = history.rows[now - from];
    current?.setAttribute("aria-current", "true");
    if (lines.length > 8) box.scrollTop = (current?.offsetTop ?? 0) - 60;
}

function historyLine({ it, at, row, changes }) {
    const sign = row === NOTHING ? [] : [signOf(kindOf(row)), " "];
    const told = changes.map(change => {
        const by = page - change.frame;
        return made("div", "", `${change.map} ${hex(change.first + by)}: ${moved(change.before, by)} -> ${moved(change.after, by)}`);
    });
    return made("li", "", link(`line ${it.number}`, () => go(at)), " ", ...sign, made("code", "", it.text), ...told);
}

// ---- Words on the path of a page ---------------------------------------------------------------------------------------------------------

// Trees are as coarse as can be, so a map alone tells the words of its tree, but for the frames of tables: a block of pages is one word where one
// entry goes on along all of it and a word of its level can have that entry, and elsewhere it has a table. docs/MODEL.md has the bits.

const LAST_LEVEL = 3; // its words are of one page each; a word above is of 512 times as many as one below

/** The fields of a leaf, from the high bits on: the name, the lowest bit, how many bits, and what their numbers say. */
const LEAF = [
    ["state", 55, 2, ["owned", "shared_owned", "shared_borrowed"]],
    ["XN", 54, 1, ["may be executed", "not executed"]],
    ["frame", 12, 36],
    ["AF", 10, 1, ["", "accessed"]],
    ["SH", 8, 2, { 3: "shareable" }],
    ["S2AP", 6, 2, { 1: "r", 3: "rw" }],
    ["MemAttr", 2, 4, { 1: "device", 15: "normal" }],
    ["page", 1, 1, ["block", "page"]],
    ["valid", 0, 1],
];
/** Those of the other words. A table's frame isn't in the data. */
const TABLE = [["frame", 12, 36], ["table", 1, 1], ["valid", 0, 1]];
const NO_LEAF = [["owner", 2, 8], ["valid", 0, 1]];
const TABLE_WORD = 0b11n;

/** The word of an entry at a level; none where no word of that level has it. */
function wordOf(entry, level) {
    const [kind, number, rights, memory, state] = entry.split(" ");
    if (entry === NOTHING) return 0n;
    if (kind === "annot") return BigInt(number) << 2n;
    if (kind !== "leaf" || level === 0 || Number(number) % 512 ** (LAST_LEVEL - level)) return undefined;
    const fields = {
        state: LEAF[0][3].indexOf(state),
        XN: rights.endsWith("x") ? 0 : 1,
        frame: number,
        AF: 1,
        SH: 3,
        S2AP: rights.startsWith("rw") ? 3 : 1,
        MemAttr: memory === "normal" ? 15 : 1,
        page: level === LAST_LEVEL ? 1 : 0,
        valid: 1,
    };
    return LEAF.reduce((word, [name, low]) => word | (BigInt(fields[name]) << BigInt(low)), 0n);
}

/** The words on a page's path, from the root's level on: each with its slot in its table, until one isn't a table's. */
function pathOf(runs, place) {
    const path = [];
    for (let level = trace.rootLevel; level <= LAST_LEVEL; level++) {
        const pages = 512 ** (LAST_LEVEL - level);
        const first = place - (place % pages);
        const entry = runs.at(first);
        const word = runs.isAll(first, pages, entry) ? wordOf(entry, level) : undefined;
        path.push({ level, slot: (first / pages) % 512, word: word ?? TABLE_WORD, isTable: word === undefined });
        if (word !== undefined) break;
    }
    return path;
}

/** A word in hexadecimal, with points where a table's frame is. */
function textOfWord({ word, isTable }) {
    const digits = word.toString(16).padStart(16, "0");
    return `0x${isTable ? `${digits.slice(0, 4)}·········${digits.slice(13)}` : digits}`;
}

/** The fields of a word, each as its bits, its name, and its number with what that says. */
function fieldsOf({ word, isTable }) {
    return (isTable ? TABLE : word & 1n ? LEAF : NO_LEAF).map(([name, low, count, says]) => {
        const value = Number((word >> BigInt(low)) & ((1n << BigInt(count)) - 1n));
        const bits = count > 1 ? `${low + count - 1}:${low}` : String(low);
        const number = count > 8 ? hex(value) : name === "owner" ? String(value) : value.toString(2).padStart(count, "0");
        const words = name === "owner" ? (value ? nameOf(value) : "nobody") : (says?.[value] ?? "");
        const text = isTable && name === "frame" ? "not in the data" : [number, words].filter(it => it).join(" ");
        return { bits, name, text };
    });
}

/** The words on the path of a page of a tree: a row for each level. What this line changed is lit, and has what was there before. */
function wordsOf(name, place) {
    const changes = lit.filter(it => it.map === name);
    const old = new Runs(trace.state.map(name).runs.slice());
    for (const it of changes) old.put(it.first, it.count, it.before);
    const was = changes.length ? pathOf(old, place) : [];
    const rows = pathOf(trace.state.map(name), place).map((it, at) => {
        const text = textOfWord(it);
        const isLit = changes.length > 0 && (!was[at] || text !== textOfWord(was[at]));
        const before = isLit && was[at] ? fieldsOf(was[at]).map(Object.values).map(String) : [];
        const fields = fieldsOf(it).map(field => {
            const kind = isLit && !before.includes(String(Object.values(field))) ? "field lit" : "field";
            return made("span", kind, made("small", "", field.bits), ` ${field.name} `, made("span", "value", field.text));
        });
        const row = made("tr", isLit ? "lit" : "", made("th", "", `level ${it.level}`), made("th", "", `slot ${it.slot}`));
        const had = isLit && was[at] ? [made("del", "", textOfWord(was[at])), " → "] : [];
        row.append(made("td", "", ...had, made("code", "", text), made("div", "fields", ...fields)));
        return row;
    });
    const table = made("table", "", made("caption", "", `${name} ${hex(place)}`), ...rows);
    Object.assign(table.dataset, { tree: name, page: hex(place) });
    return table;
}

// ---- Pools, CPUs and VMs -----------------------------------------------------------------------------------------------------------------

const STAGES = ["booked", "installed", "open", "closing", "dying", "finished"];
const NONE = { loaded: "nothing", hand: "empty", ticket: "none" }; // what a CPU has at boot

/** A fact, lit and with what was there before where the chosen line changed it. */
function fact(tag, name, otherwise, ...before) {
    const change = lit.find(it => it.fact === name);
    const was = change ? [made("del", "", change.before), " → "] : [];
    return made(tag, change ? "lit" : "", ...before, ...was, trace.state.facts.get(name) ?? otherwise);
}

function showFacts() {
    const { facts } = trace.state;
    const isLit = name => lit.some(it => it.fact === name);
    const slots = [...new Set([...facts.keys()].map(name => numberIn(/^(?:guest|vm) (\d+)/, name)))].filter(it => it !== undefined).sort((a, b) => a - b);
    const pool = (name, use, free, cell) => {
        const all = trace.state.map("owner").runs.filter(run => run.text.endsWith(` use ${use}`)).reduce((sum, run) => sum + run.count, 0);
        const meter = made("meter");
        meter.max = Math.max(1, all);
        meter.value = free;
        return made("tr", "", made("th", "", name), made("td", "", meter), made("td", "", `${free} free, ${several(all - free, "table")}`), cell);
    };
    const free = slot => numberIn(/free (\d+)$/, facts.get(`guest ${slot}`));
    const guests = slots.filter(slot => free(slot) !== undefined || isLit(`guest ${slot}`));
    fill(
        element("pools"),
        pool("shared pool", "shared_pool", Number(facts.get("free shared")), fact("td", "free shared", "", "free shared: ")),
        ...guests.map(slot => pool(`guest ${slot}`, `vm_pool ${slot}`, free(slot) ?? 0, fact("td", `guest ${slot}`, "empty", `guest ${slot}: `))),
    );
    const busy = [...Array(Math.min(trace.cpus, 64)).keys()].filter(cpu => {
        const has = what => isLit(`cpu ${cpu} ${what}`) || (facts.get(`cpu ${cpu} ${what}`) ?? NONE[what]) !== NONE[what];
        return trace.cpus <= 4 || Object.keys(NONE).some(has);
    });
    fill(
        element("cpus"),
        made("tr", "", ...["CPU", ...Object.keys(NONE)].map(name => made("th", "", name))),
        ...busy.map(cpu => made("tr", "", made("th", "", String(cpu)), ...Object.keys(NONE).map(what => fact("td", `cpu ${cpu} ${what}`, NONE[what])))),
    );
    element("idle").textContent = busy.length < trace.cpus ? `${several(trace.cpus - busy.length, "other CPU")}: nothing` : "";
    const vms = slots.filter(slot => isLit(`vm ${slot}`) || !(facts.get(`vm ${slot}`) ?? "empty").startsWith("empty"));
    fill(element("vms"), ...(vms.length ? vms.map(vmOf) : [made("p", "", "All slots are empty.")]));
}

/** The VM of a slot: the stage of its life, its guest, and its vCPUs that are loaded. */
function vmOf(slot) {
    const { facts } = trace.state;
    const generation = numberIn(/generation (\d+)/, facts.get(`vm ${slot}`));
    const ticket = [...facts].find(([name, text]) => name.endsWith(" ticket") && text.startsWith(`${slot}.${generation} `))?.[1];
    const now = facts.get(`vm ${slot}`)?.startsWith("open") ? "open" : ticket?.split(" ").at(-1);
    const vcpus = [...facts].filter(([name, text]) => name.startsWith(`vm ${slot} vcpu `) && (text !== "no cpu" || lit.some(it => it.fact === name)));
    return made(
        "div",
        "vm",
        made("h3", "", signOf({ code: String(slot), colour: colourOf(slot + 2) }), ` VM ${slot}.${generation ?? ""}`),
        made("ol", "stages", ...STAGES.map(stage => made("li", stage === now ? "now" : "", stage))),
        fact("p", `vm ${slot}`, "", `vm ${slot}: `),
        fact("p", `guest ${slot}`, "empty", `guest ${slot}: `),
        ...vcpus.map(([name]) => fact("p", name, "", `${name}: `)),
    );
}

// ---- All of the state as text ------------------------------------------------------------------------------------------------------------

const opened = new Set(); // the texts that are open: only those are made

/** Shows the state as texts that can be opened: what `draw --text` writes at this line, and what `show` would of each tree. */
function showTexts() {
    const names = [...trace.state.maps.keys()].map(name => (name === "owner" ? "draw --text" : `show ${name}`));
    const blocks = names.map(name => {
        const text = made("pre");
        const block = made("details", "", made("summary", "", name), text);
        block.dataset.name = name;
        block.open = opened.has(name);
        if (block.open) text.textContent = textOf(name);
        block.addEventListener("toggle", () => {
            opened[block.open ? "add" : "delete"](name);
            if (block.open) text.textContent = textOf(name);
        });
        return block;
    });
    fill(element("texts"), ...blocks);
}

function textOf(name) {
    const { maps, facts } = trace.state;
    if (name !== "draw --text") return maps.get(name.slice(5)).runs.map(run => `run ${hex(run.first)} ${run.count} ${run.text}`).join("\n");
    const rows = maps.get("owner").runs.map(run => `rows ${hex(run.first)} ${run.count} ${run.text}`);
    const vms = [...Array(64).keys()].map(slot => (facts.get(`vm ${slot}`) ?? "").replace(/^(\w+) generation (\d+)/, `vm ${slot}.$2 $1`));
    return [...rows, ...vms.filter(it => it && !it.includes(" empty "))].join("\n");
}

// ---- The page of a trace -----------------------------------------------------------------------------------------------------------------

const LEGEND = [
    ["owner 0 lent - use plain", "host"],
    ["owner 1 lent - use plain", "hypervisor (EL2)"],
    ["owner 2 lent - use plain", "guest 0"],
    ["owner 0 lent 1 use plain", "host's, lent to the hypervisor"],
    ["owner 2 lent 0 use plain", "guest 0's, lent to the host"],
    ["owner 1 lent - use shared_pool", "shared pool or its tables"],
    ["owner 1 lent - use vm_pool 0", "guest 0's pool or tables"],
    ["owner 1 lent - use in_hand 0", "hand of CPU 0"],
];

/** Shows another outcome, at the line with the same number. */
function showOutcome(outcome) {
    if (!trace.orders.length) return;
    const { number } = trace.lines[list.here];
    trace.choose((outcome + trace.orders.length) % trace.orders.length);
    element("order").value = trace.outcome;
    showLines();
    go(trace.lines.findIndex(it => it.number === number));
}

function showTrace() {
    trace = new Trace();
    list.show = showLine;
    const places = is => [...trace.lines.keys()].filter(at => is(trace.lines[at]));
    const isWrong = it => trace.said.has(it.number) || it.told.some(one => one.type === "fault");
    const ofState = act => () => trace.state && act();
    listen([
        ...KEYS,
        [["Shift+ArrowDown", "J"], "Shift ↓", "the next line that changes something", () => leap(places(it => it.changes.length), 1)],
        [["Shift+ArrowUp", "K"], "Shift ↑", "the one before", () => leap(places(it => it.changes.length), -1)],
        [["]"], "]", "the next line that changes the chosen page", () => leap(places(it => it.changes.some(isOfPage)), 1)],
        [["["], "[", "the one before", () => leap(places(it => it.changes.some(isOfPage)), -1)],
        [["m"], "m", "the next line that misses an expectation, or has a fault", () => leap(places(isWrong), 1)],
        [["f"], "f", "the next of what is found, on top: its line or its page", () => nextFound(1)],
        [["F"], "F", "the one before", () => nextFound(-1)],
        [["ArrowRight", "l"], "→ l", "the next cell of the picture", ofState(() => choosePage(nextCell(1)))],
        [["ArrowLeft", "h"], "← h", "the one before", ofState(() => choosePage(nextCell(-1)))],
        [["Shift+ArrowRight", "L"], "Shift →", "the next run of pages that are alike", ofState(() => choosePage(nextRun(1)))],
        [["Shift+ArrowLeft", "H"], "Shift ←", "the one before", ofState(() => choosePage(nextRun(-1)))],
        [["c"], "c", "the next pages that this line changed", ofState(() => choosePage(nextLit()))],
        [["+", "="], "+", "zoom in, to the chosen page", ofState(() => zoom(1 / 4))],
        [["-"], "-", "zoom out, to all of memory", ofState(() => zoom(4))],
        [["g"], "g", "write which page to choose: a frame, or a page of a tree, as guest 0 0x80000", () => element("goto").select()],
        [["t"], "t", "the owner rows and VMs as text", ofState(() => (element("texts").querySelector("details").open ^= true))],
        [["o"], "o", "the next outcome of what is behind start", () => showOutcome(trace.outcome + 1)],
        [["O"], "O", "the one before", () => showOutcome(trace.outcome - 1)],
    ]);
    const on = (name, event, act) => element(name).addEventListener(event, act);
    on("slider", "input", () => go(Number(element("slider").value)));
    on("before", "click", () => go(list.here - 1));
    on("after", "click", () => go(list.here + 1));
    on("in", "click", () => zoom(1 / 4));
    on("out", "click", () => zoom(4));
    on("order", "change", () => showOutcome(Number(element("order").value)));
    on("goto", "change", chooseWritten);
    element("order").append(...trace.orders.map((it, at) => new Option(`${at + 1} of ${trace.orders.length}: ${it.replies}`, at)));
    element("orders").hidden = trace.orders.length === 0;
    const legend = LEGEND.map(([row, words]) => made("span", "", signOf(kindOf(row)), ` ${words}`));
    if (trace.devices?.length) legend.push(made("span", "", signOf(DEVICE), " device"));
    legend.push(made("span", "", made("span", "cell lit"), " changed by this line"), made("span", "", made("span", "cell mixed"), " several: zoom in"));
    element("legend").replaceChildren(...legend);
    width = element("state").clientWidth - 24;
    page = trace.lines.flatMap(it => it.changes).find(it => it.frame !== undefined)?.frame ?? trace.regions?.[0]?.first ?? 0;
    showLines();
    const asked = trace.lines.findIndex(it => `#${it.number}` === location.hash);
    go(asked >= 0 ? asked : trace.boot);
    new ResizeObserver(() => {
        width = element("map").clientWidth;
        if (trace.state) showMap();
    }).observe(element("map"));
}

// ---- The page of an image of memory ------------------------------------------------------------------------------------------------------

const ownerOfTree = tree => (tree === "host" ? 0 : tree === "hyp" ? 1 : 2 + Number(tree.slice(6)));

/** A line of the report of `dump`. */
function dumpLine(it) {
    const states = it.states ? ` states ${it.states}` : "";
    if (it.type === "tree") return `tree ${it.tree} root ${it.root} level ${it.level} pages ${it.pages} tables ${it.tables}${states}`;
    if (it.type === "run") return `${it.page} ${it.count} ${it.entry}`;
    if (it.type === "end") return `end trees ${it.trees} findings ${it.findings}`;
    if (it.type !== "finding") return it.text ?? it.hexadecimal;
    const rest = it.of ? `of ${it.of}` : it.first ? `${it.first} and ${it.second}` : (it.claim ?? it.about);
    return ["finding", it.finding, it.frame, rest].filter(part => part !== undefined).join(" ");
}

/** Shows the report: its findings first, then the trees with their runs; and of the chosen line what other trees have of its frames. */
function showDump() {
    document.body.classList.add("dump");
    const report = objects("dump");
    const findings = report.filter(it => it.type === "finding");
    const lines = [...findings, ...report.filter(it => it.type !== "finding")];
    let tree;
    for (const it of lines) {
        it.line = dumpLine(it);
        if (it.type === "tree") ({ tree } = it);
        if (it.type !== "run") continue;
        const owner = numberIn(/^owner (\d+)/, it.entry);
        const first = Number(it.page);
        const frame = numberIn(/^frame (\S+)/, it.entry) ?? (tree === "host" ? first : undefined);
        Object.assign(it, { tree, first, frame, pages: Number(it.count), owner: owner ?? ownerOfTree(tree) });
    }
    const runs = lines.filter(it => it.type === "run");

    /** The place of the run that has a page of a tree, or of the first behind it; without a page, or such a run, that of the tree. */
    const placeIn = (tree, page) => {
        const run = page && runs.find(it => it.tree === tree && it.first + it.pages > Number(page));
        return lines.indexOf(run ?? lines.find(it => it.type === "tree" && it.tree === tree));
    };
    /** A finding's line, with a link at each place that it names. */
    const linked = it =>
        it.line.split(/\b((?:host|hyp|guest \d+)(?: 0x[0-9a-f]+)?)/).map((text, at) => {
            const [, tree, page] = /^(.*?)(?: (0x.*))?$/.exec(text);
            return at % 2 ? link(text, () => go(placeIn(tree, page))) : text;
        });
    list.show = at => {
        const it = lines[at];
        const inside = [made("h2", "", made("code", "", ...(it.type === "finding" ? linked(it) : [it.line])))];
        if (it.type === "run") {
            const frames = it.frame === undefined ? "" : `, frames ${hex(it.frame)}..${hex(it.frame + it.pages - 1)}`;
            const others = runs.filter(one => one !== it && one.frame < it.frame + it.pages && it.frame < one.frame + one.pages);
            const links = others.slice(0, 200).map(one => made("li", "", link(`${one.tree} ${one.line}`, () => go(lines.indexOf(one)))));
            inside.push(made("p", "", `${it.tree}, pages ${hex(it.first)}..${hex(it.first + it.pages - 1)}${frames}`));
            inside.push(made("h3", "", "Other runs of these frames"), made("ul", "told", ...(links.length ? links : ["none"])));
        }
        element("step").replaceChildren(...inside);
    };
    const follow = () => (rowAt(list.here).querySelector("button") ?? element("step").querySelector("button"))?.click();
    const rowOf = it => {
        const isNone = !/^(frame|owner) /.test(it.entry);
        const kind = isNone ? { code: "?", colour: "none" } : { code: letterOf(it.owner), colour: colourOf(it.owner) };
        const sign = it.type === "finding" ? made("span", "bad", "✗") : it.type === "run" ? signOf(kind) : "";
        return made("div", `line ${it.type}`, sign, made("span", "text", ...(it.type === "finding" ? linked(it) : [it.line])));
    };
    fillList(lines.length, at => rowOf(lines[at]), at => lines[at].line);
    const good = report.at(-1)?.type === "end" ? "✓ no finding" : "the report has no end";
    element("verdict").append(findings.length ? made("li", "bad", link(`✗ ${several(findings.length, "finding")}`, () => go(0))) : made("li", "", good));
    listen([
        ...KEYS,
        [["f"], "f", "the next finding", () => leap([...findings.keys()], 1)],
        [["F"], "F", "the one before", () => leap([...findings.keys()], -1)],
        [["Enter"], "Enter", "of a finding, the place that it names first; of a run, the first other run of its frames", follow],
    ]);
    go(0);
}

// ---- Beginning ---------------------------------------------------------------------------------------------------------------------------

try {
    const { kind, version } = objects("about")[0];
    const name = plain(new TextDecoder().decode(Uint8Array.from(bytes("file"), it => it.charCodeAt(0))));
    document.title = name;
    element("name").append(made("bdi", "", name), made("small", "", version));
    if (kind === "dump") showDump();
    else showTrace();
} catch (error) {
    element("verdict").append(made("li", "bad", `✗ the data of this page can't be read: ${error.message}`));
    throw error;
}
