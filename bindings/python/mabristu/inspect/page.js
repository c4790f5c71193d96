"use strict";

// WHERE THE FIELDS LIE
//
// The page takes the bytes apart to show where each field lies (Protocol Buffers documentation, "Encoding"). Whether they are a message of the type
// is what the library said.

const ROW = 20;
const DEEPEST = 100;
const SIGNED = new Set(["int32", "int64", "sint32", "sint64", "enum"]);
const utf8 = new TextDecoder("utf-8", { fatal: true });

// A varint of at most ten bytes: its number, as a BigInt, and where it ends; or null where the bytes end before it does.
function varint(bytes, at, end) {
    let low = 0;
    for (let i = 0; i < 10 && at + i < end; i++) {
        const byte = bytes[at + i];
        if (byte < 128 && i < 4) return { number: BigInt(low + byte * 2 ** (7 * i)), end: at + i + 1 };
        if (byte < 128) return long(bytes, at, at + i + 1);
        low += (byte & 127) * 2 ** (7 * i);
    }
    return null;
}

function long(bytes, at, end) {
    let number = 0n;
    for (let i = end - 1; i >= at; i--) number = (number << 7n) | BigInt(bytes[i] & 127);
    return { number: BigInt.asUintN(64, number), end };
}

// The records from one byte to another, up to the first that is not whole. `within` is the number of the group that they are in, or 0.
function walk(bytes, from, to, type, depth, within, parent) {
    const list = [];
    let at = from;
    while (at < to) {
        const tag = varint(bytes, at, to);
        if (!tag || tag.number >= 2n ** 32n) return { list, end: at, isWhole: false };
        const number = Number(tag.number >> 3n), wire = Number(tag.number & 7n);
        if (wire === 4 && number === within) return { list, end: tag.end, from: at, isWhole: true };
        const record = { at, tagEnd: tag.end, payload: tag.end, end: tag.end, number, wire, field: type && type[number], list: null, parent, text: "", level: depth };
        if (!payloadOf(bytes, record, to, depth)) return { list, end: at, isWhole: false, broken: record };
        list.push(record);
        at = record.end;
    }
    return { list, end: at, isWhole: within === 0 };
}

// Finds where the payload of a record lies, and what it says; false where it is not whole.
function payloadOf(bytes, record, to, depth) {
    if (record.number === 0) return false;
    if (record.wire === 0) {
        const it = varint(bytes, record.tagEnd, to);
        if (!it) return false;
        record.end = it.end;
        record.text = numberText(it.number, record.field);
    } else if (record.wire === 1 || record.wire === 5) {
        record.end = record.tagEnd + (record.wire === 1 ? 8 : 4);
        if (record.end > to) return false;
        record.text = fixedText(bytes, record.tagEnd, record.end, record.field);
    } else if (record.wire === 2) {
        const it = varint(bytes, record.tagEnd, to);
        if (!it || it.number > BigInt(to - it.end)) return false;
        record.payload = it.end;
        record.end = it.end + Number(it.number);
        lengthDelimited(bytes, record, depth);
    } else if (record.wire === 3) {
        const inner = depth < DEEPEST ? walk(bytes, record.tagEnd, to, innerType(record.field), depth + 1, record.number, record) : { isWhole: false };
        if (!inner.isWhole || inner.from === undefined) return false;
        record.list = inner.list;
        record.end = inner.end;
        record.endTag = inner.from;
    } else return false;
    return true;
}

function innerType(field) {
    if (!field) return null;
    if (field.shape === "map") return { 1: { name: "key", kind: field.key, shape: "implicit" }, 2: { name: "value", kind: field.kind, shape: "optional", type: field.type, enum: field.enum } };
    return field.type ? types[field.type] : null;
}

function lengthDelimited(bytes, record, depth) {
    const { payload, end, field } = record;
    const kind = field && (field.shape === "map" ? "message" : field.kind);
    if (kind === "string" || kind === "bytes") record.text = kind === "string" ? quoted(bytes, payload, end) : hex(bytes, payload, end);
    else if (kind === "message" || kind === "group") {
        const inner = depth < DEEPEST ? walk(bytes, payload, end, innerType(field), depth + 1, 0, record) : { list: [], isWhole: false };
        record.list = inner.list;
        if (!inner.isWhole) record.text = "not whole";
    } else if (field) packed(bytes, record, depth);
    else {
        const inner = end > payload && depth < DEEPEST ? walk(bytes, payload, end, null, depth + 1, 0, record) : { isWhole: false };
        if (inner.isWhole && inner.list.length > 0) {
            record.list = inner.list;
            record.isGuess = true;
        } else record.text = quoted(bytes, payload, end);
    }
}

function packed(bytes, record, depth) {
    const field = record.field, size = /^s?fixed64|double$/.test(field.kind) ? 8 : /^s?fixed32|float$/.test(field.kind) ? 4 : 0;
    record.list = [];
    for (let at = record.payload; at < record.end;) {
        const it = size ? { end: at + size } : varint(bytes, at, record.end);
        if (!it || it.end > record.end) break;
        record.list.push({ at, tagEnd: at, payload: at, end: it.end, number: record.number, wire: size === 8 ? 1 : size === 4 ? 5 : 0, field, list: null, parent: record, isElement: true,
            text: size ? fixedText(bytes, at, it.end, field) : numberText(it.number, field), level: depth + 1 });
        at = it.end;
    }
}

function numberText(number, field) {
    const kind = field && field.kind;
    if (kind === "bool") return number === 0n ? "false" : "true";
    if (kind === "sint32" || kind === "sint64") return String((number >> 1n) ^ -(number & 1n));
    if (kind === "enum") {
        const value = String(BigInt.asIntN(32, number));
        return field.enum && field.enum[value] !== undefined ? `${field.enum[value]} (${value})` : value;
    }
    if (SIGNED.has(kind)) return String(BigInt.asIntN(kind === "int32" ? 32 : 64, number));
    return String(kind === "uint32" ? BigInt.asUintN(32, number) : number);
}

function fixedText(bytes, at, end, field) {
    const view = new DataView(bytes.buffer, bytes.byteOffset + at, end - at), kind = field && field.kind;
    if (end - at === 8) return kind === "double" ? String(view.getFloat64(0, true)) : String(kind === "sfixed64" ? view.getBigInt64(0, true) : view.getBigUint64(0, true));
    return kind === "float" ? String(view.getFloat32(0, true)) : String(kind === "sfixed32" ? view.getInt32(0, true) : view.getUint32(0, true));
}

function hex(bytes, from, to) {
    let text = "";
    for (let at = from; at < to && at < from + 64; at++) text += bytes[at].toString(16).padStart(2, "0") + " ";
    return text.trim() + (to > from + 64 ? " .." : "");
}

// A string between quotes, its controls as escapes; hexadecimal where the bytes are not UTF-8.
function quoted(bytes, from, to) {
    try {
        const text = JSON.stringify(utf8.decode(bytes.subarray(from, to)));
        return text.length > 200 ? text.slice(0, 200) + "\u2026" : text;
    } catch {
        return hex(bytes, from, to);
    }
}

// WHAT IS SHOWN

let bytes = new Uint8Array(0), types = {}, root = null, tops = [], shown = [], open = new Set(), chosen = null, fault = null, said = {}, isServed = false, typeName = null;
const $ = id => document.getElementById(id);

function fromBase64(text) {
    const binary = atob(text), it = new Uint8Array(binary.length);
    for (let at = 0; at < binary.length; at++) it[at] = binary.charCodeAt(at);
    return it;
}

function toHex(it) {
    const parts = [];
    for (const byte of it) parts.push(byte.toString(16).padStart(2, "0"));
    return parts.join("");
}

function show(newBytes, newSaid) {
    bytes = newBytes;
    said = newSaid;
    fault = said && said.fault ? said.fault : null;
    const whole = walk(bytes, 0, bytes.length, types[typeName] || null, 0, 0, null);
    tops = whole.list;
    open = new Set();
    const count = counted(tops);
    if (count <= 2000) each(tops, record => record.list && open.add(record));
    chosen = null;
    renew();
    verdict(whole);
    $("json").textContent = said.json || said.no_json || "";
    $("json-part").hidden = !$("json").textContent;
    $("listing").textContent = said.listing || "";
    $("listing-part").hidden = said.listing === undefined;
    $("detail").replaceChildren();
    $("change").hidden = true;
    if (fault) scrollTo(hexRows, Math.floor(fault.byte / 16));
}

function counted(list) {
    let count = list.length;
    for (const record of list) if (record.list) count += counted(record.list);
    return count;
}

function each(list, what) {
    for (const record of list) {
        what(record);
        if (record.list) each(record.list, what);
    }
}

function verdict(whole) {
    const at = $("verdict");
    at.classList.toggle("refused", fault !== null);
    const of = typeName ? ` of ${typeName}` : "";
    if (fault) at.textContent = `Refused at byte ${fault.byte}: ${fault.cause}${place(fault.path)}. ${whole.isWhole ? "" : "The fields before it are shown."}`;
    else if (said.listing !== undefined) {
        const canonical = fromBase64(said.canonical);
        const isSame = canonical.length === bytes.length && canonical.every((byte, at) => byte === bytes[at]);
        at.textContent = `A message${of}, ${bytes.length} bytes. ${isSame ? "They are its canonical bytes." : `Its ${canonical.length} canonical bytes differ from them.`}`;
    } else at.textContent = `${bytes.length} bytes${of}. ${whole.isWhole ? "Its fields are whole." : "The fields after the last one shown are not whole."}${isServed ? "" : " Nothing has judged them."}`;
}

// A path of a fault by names: a, then .b, [2] or [key].
function place(path) {
    let type = types[typeName], text = "";
    for (const step of path || []) {
        const number = Array.isArray(step) ? step[0] : step, field = type && type[number];
        text += `${text ? "." : ""}${field ? field.name : number}`;
        if (Array.isArray(step) && field && field.shape === "list") text += `[${step[1]}]`;
        type = field && field.type ? types[field.type] : null;
    }
    return text ? ` in ${text}` : "";
}

// ROWS OF WHICH THOSE IN SIGHT ARE MADE

function rowsIn(element, make) {
    const all = document.createElement("div");
    all.className = "all";
    element.replaceChildren(all);
    const it = { element, all, count: 0, make };
    element.addEventListener("scroll", () => draw(it), { passive: true });
    new ResizeObserver(() => draw(it)).observe(element);
    return it;
}

function draw(it) {
    const first = Math.max(0, Math.floor(it.element.scrollTop / ROW) - 5), last = Math.min(it.count, first + Math.ceil(it.element.clientHeight / ROW) + 10);
    it.all.style.height = `${it.count * ROW}px`;
    const made = [];
    for (let at = first; at < last; at++) {
        const row = it.make(at);
        row.style.top = `${at * ROW}px`;
        made.push(row);
    }
    it.all.replaceChildren(...made);
}

function scrollTo(it, row) {
    const top = row * ROW, { scrollTop, clientHeight } = it.element;
    if (top < scrollTop || top + ROW > scrollTop + clientHeight) it.element.scrollTop = Math.max(0, top - clientHeight / 2);
    draw(it);
}

function span(text, name) {
    const it = document.createElement("span");
    if (name) it.className = name;
    it.textContent = text;
    return it;
}

// What a byte is for the chosen field.
function partAt(at) {
    if (fault && at === fault.byte) return "fault";
    if (!chosen || at < chosen.at || at >= chosen.end) return "";
    if (at < chosen.tagEnd || (chosen.endTag !== undefined && at >= chosen.endTag)) return "tag";
    return at < chosen.payload ? "length" : "payload";
}

function hexRow(row) {
    const it = document.createElement("div"), from = row * 16;
    it.className = "row";
    it.append(span(from.toString(16).padStart(8, "0") + "  ", "at"));
    for (let at = from; at < from + 16; at++) {
        const isThere = at < bytes.length, byte = span(isThere ? bytes[at].toString(16).padStart(2, "0") : at === bytes.length && fault && fault.byte === at ? "--" : "  ", `byte ${partAt(at)}`);
        if (isThere) byte.dataset.at = at;
        it.append(byte);
    }
    let text = "  ";
    for (let at = from; at < from + 16 && at < bytes.length; at++) text += bytes[at] >= 32 && bytes[at] < 127 ? String.fromCharCode(bytes[at]) : ".";
    it.append(text);
    return it;
}

function label(record) {
    if (record.isElement) return `[${record.parent.list.indexOf(record)}]`;
    return record.field ? record.field.name : String(record.number);
}

function kindText(record) {
    if (record.field) return record.field.shape === "map" ? `map<${record.field.key}, ${record.field.type || record.field.kind}>` : record.field.type || record.field.kind;
    const wire = ["VARINT", "I64", "LEN", "SGROUP", "EGROUP", "I32"][record.wire];
    return record.isGuess ? `${wire}, shown as a message` : wire;
}

function treeRow(at) {
    const record = shown[at], it = document.createElement("div");
    it.className = record === chosen ? "row chosen" : "row";
    it.id = `field-${at}`;
    it.dataset.row = at;
    it.setAttribute("role", "treeitem");
    it.setAttribute("aria-level", record.level + 1);
    it.setAttribute("aria-selected", record === chosen);
    if (record.list && record.list.length) it.setAttribute("aria-expanded", open.has(record));
    it.append("  ".repeat(record.level), span(record.list && record.list.length ? (open.has(record) ? "\u25be" : "\u25b8") : "", "toggle"), label(record), " ", span(kindText(record), "kind"), record.text ? ` ${record.text}` : "");
    return it;
}

const hexRows = rowsIn($("bytes"), hexRow), treeRows = rowsIn($("tree"), treeRow);

function renew() {
    shown = [];
    const add = list => {
        for (const record of list) {
            shown.push(record);
            if (record.list && open.has(record)) add(record.list);
        }
    };
    add(tops);
    hexRows.count = Math.floor(bytes.length / 16) + 1;
    treeRows.count = shown.length;
    draw(hexRows);
    draw(treeRows);
}

// CHOOSING

function choose(record, scrollsBytes = true) {
    chosen = record;
    for (let it = record && record.parent; it; it = it.parent) open.add(it);
    renew();
    if (!record) return;
    const row = shown.indexOf(record);
    scrollTo(treeRows, row);
    $("tree").setAttribute("aria-activedescendant", `field-${row}`);
    if (scrollsBytes) scrollTo(hexRows, Math.floor(record.at / 16));
    detail(record);
}

// The innermost field whose bytes hold this one.
function fieldAt(at) {
    let list = tops, found = null;
    while (list) {
        const inner = list.find(record => at >= record.at && at < record.end);
        if (!inner) return found;
        found = inner;
        list = inner.list;
    }
    return found;
}

function detail(record) {
    const parts = [span(label(record)), span(kindText(record), "kind")];
    if (!record.isElement) parts.push(span(`tag ${hex(bytes, record.at, record.tagEnd)}: field ${record.number}, wire type ${record.wire}`, "tag"));
    if (record.payload > record.tagEnd) parts.push(span(`length ${hex(bytes, record.tagEnd, record.payload)}: ${record.end - record.payload} bytes`, "length"));
    const end = record.endTag === undefined ? record.end : record.endTag;
    parts.push(span(`payload, bytes ${record.payload} to ${end}: ${hex(bytes, record.payload, end)}${record.text ? ` = ${record.text}` : ""}`, "payload"));
    $("detail").replaceChildren(...parts);
    $("change").hidden = !(isServed && record.field && !record.list && said.listing !== undefined);
    $("new-value").value = "";
    $("new-value").placeholder = record.text;
    $("change-error").textContent = "";
}

// The steps to a field by names, indexes and keys, as the packages name a place.
function stepsTo(record) {
    const steps = [];
    for (let it = record; it; it = it.parent) {
        if (it.parent && it.parent.field && it.parent.field.shape === "map") continue;
        if (!it.field) return null;
        if (it.isElement || it.field.shape === "list") {
            steps.unshift(place_in(it));
            if (it.isElement) it = it.parent;
        } else if (it.field.shape === "map") steps.unshift(keyOf(it));
        steps.unshift(it.field.name);
    }
    return steps;
}

// The index of an element of a list, which counts packed and single ones.
function place_in(record) {
    const around = record.isElement ? record.parent : record, list = around.parent ? around.parent.list : tops;
    let index = 0;
    for (const it of list) {
        if (it === around) return index + (record.isElement ? around.list.indexOf(record) : 0);
        if (it.number === record.number) index += it.list && it.list.length && it.list[0].isElement ? it.list.length : 1;
    }
    return index;
}

function keyOf(entry) {
    const key = entry.list.findLast(it => it.number === 1), kind = entry.field.key;
    if (kind === "string") return key ? utf8.decode(bytes.subarray(key.payload, key.end)) : "";
    if (kind === "bool") return key ? key.text === "true" : false;
    return key ? Number(key.text) : 0;
}

async function ask(word, question) {
    const answer = await fetch(word, { method: "POST", body: JSON.stringify(question) });
    return answer.json();
}

$("bytes").addEventListener("mousemove", event => event.target.dataset.at !== undefined && fieldAt(+event.target.dataset.at) !== chosen && choose(fieldAt(+event.target.dataset.at), false));
$("bytes").addEventListener("click", event => event.target.dataset.at !== undefined && choose(fieldAt(+event.target.dataset.at), false));
$("tree").addEventListener("mousemove", event => {
    const row = event.target.closest(".row");
    if (row && shown[row.dataset.row] !== chosen) choose(shown[row.dataset.row]);
});
$("tree").addEventListener("click", event => {
    const row = event.target.closest(".row");
    if (!row) return;
    if (event.target.classList.contains("toggle")) toggle(shown[row.dataset.row]);
    else choose(shown[row.dataset.row]);
});

function toggle(record) {
    if (!open.delete(record)) open.add(record);
    choose(record);
}

function onKey(event) {
    const row = shown.indexOf(chosen), last = shown.length - 1;
    const to = { ArrowDown: Math.min(last, row + 1), ArrowUp: Math.max(0, row - 1), Home: 0, End: last, PageDown: Math.min(last, row + 20), PageUp: Math.max(0, row - 20) }[event.key];
    if (last < 0) return;
    if (to !== undefined) choose(shown[to]);
    else if (event.key === "ArrowRight" && chosen && chosen.list && chosen.list.length) open.has(chosen) ? choose(chosen.list[0]) : toggle(chosen);
    else if (event.key === "ArrowLeft" && chosen) chosen.list && open.has(chosen) ? toggle(chosen) : chosen.parent && choose(chosen.parent);
    else return;
    event.preventDefault();
}
$("tree").addEventListener("keydown", onKey);
$("bytes").addEventListener("keydown", onKey);

// OTHER BYTES

// Bytes that someone pasted: hexadecimal where it is only that, else base64.
function pasted(text) {
    const bare = text.replace(/0x|[\s,:]/g, "");
    if (/^([0-9a-fA-F]{2})*$/.test(bare)) return Uint8Array.from(bare.match(/../g) || [], it => parseInt(it, 16));
    return fromBase64(bare.replace(/-/g, "+").replace(/_/g, "/"));
}

async function judged(it) {
    return isServed ? ask("look", { hex: toHex(it) }) : {};
}

async function withPasted(what) {
    $("paste-error").textContent = "";
    try {
        await what(pasted($("pasted").value));
    } catch {
        $("paste-error").textContent = "These are neither hexadecimal nor base64.";
    }
}

$("look").addEventListener("click", () => withPasted(async it => show(it, await judged(it))));
$("compare").addEventListener("click", () => withPasted(async it => compare(it)));
$("file").addEventListener("change", async event => {
    const file = event.target.files[0];
    if (!file) return;
    const it = new Uint8Array(await file.arrayBuffer());
    $("name").textContent = file.name;
    show(it, await judged(it));
});

// The fields of a message that are no messages, by their places.
function leaves(list, before, found) {
    const counts = new Map();
    for (const record of list) {
        const index = counts.get(record.number) || 0;
        counts.set(record.number, index + 1);
        const place = `${before}${label(record)}${record.isElement ? "" : index ? `[${index}]` : ""}`;
        if (record.list && record.list.length) leaves(record.list, record.list[0].isElement ? place : `${place}.`, found);
        else found.set(place, record.text || "{}");
    }
    return found;
}

function compare(it) {
    const own = leaves(tops, "", new Map()), before = bytes;
    bytes = it;
    const other = leaves(walk(it, 0, it.length, types[typeName] || null, 0, 0, null).list, "", new Map());
    bytes = before;
    const rows = [];
    for (const place of new Set([...own.keys(), ...other.keys()])) {
        if (own.get(place) === other.get(place)) continue;
        const row = document.createElement("tr");
        for (const text of [place, own.get(place) ?? "absent", other.get(place) ?? "absent"]) {
            const cell = document.createElement("td");
            cell.textContent = text;
            row.append(cell);
        }
        rows.push(row);
        if (rows.length === 2000) break;
    }
    $("rows").replaceChildren(...rows);
    $("differences").hidden = false;
    $("differences").querySelector("h2").textContent = rows.length ? `${rows.length} differences` : "No differences";
}

$("change").addEventListener("submit", async event => {
    event.preventDefault();
    const steps = chosen && stepsTo(chosen);
    if (!steps) return;
    const answer = await ask("change", { hex: toHex(bytes), steps, text: $("new-value").value });
    if (answer.error) $("change-error").textContent = answer.error;
    else show(fromBase64(answer.bytes), answer.said);
});

// FRAMES

let frames = [];

function listFrames(answer) {
    $("frames").hidden = false;
    for (const frame of answer.frames) {
        const row = document.createElement("div"), number = frames.length;
        row.setAttribute("role", "option");
        row.setAttribute("aria-selected", "false");
        row.id = `frame-${number}`;
        row.className = frame.fault ? "bad" : "";
        row.textContent = `${number}  at ${frame.at}, ${frame.size === null ? "no length" : `${frame.size} bytes`}${frame.fault ? `: ${frame.fault.cause}` : ""}`;
        row.addEventListener("click", () => openFrame(number));
        frames.push(frame);
        $("frame-list").append(row);
    }
    $("more-frames").hidden = !answer.more || !isServed;
}

let openedFrame = 0;

async function openFrame(number) {
    if (!isServed || number < 0 || number >= frames.length) return;
    const answer = await ask("frame", { number });
    if (answer.error) return;
    for (const row of $("frame-list").children) row.setAttribute("aria-selected", row.id === `frame-${number}`);
    $("frame-list").setAttribute("aria-activedescendant", `frame-${number}`);
    $(`frame-${number}`).scrollIntoView({ block: "nearest" });
    openedFrame = number;
    show(fromBase64(answer.bytes), answer.said);
}

$("more-frames").addEventListener("click", async () => listFrames(await ask("frames", { first: frames.length })));
$("frame-list").addEventListener("keydown", event => {
    const to = { ArrowDown: openedFrame + 1, ArrowUp: openedFrame - 1, Home: 0, End: frames.length - 1 }[event.key];
    if (to === undefined) return;
    event.preventDefault();
    openFrame(to);
});

async function begin() {
    const here = $("given");
    isServed = !here;
    const given = here ? JSON.parse(here.textContent) : await (await fetch("given")).json();
    types = given.types;
    typeName = given.type;
    const name = given.name || "Message";
    $("name").textContent = name;
    document.title = name;
    if (given.stream) listFrames(given.stream);
    show(fromBase64(given.bytes), given.said);
}

begin();
