// Answers calls of the library as host/tests/calls.c does, which says how they are written, with the WebAssembly module:
//
//     node calls.mjs girderbasil.wasm          through its exports as they are
//     node calls.mjs girderbasil.wasm wrapped  through web/girderbasil.js
import { readFileSync } from "node:fs";
import { LAYOUTS, MOST_REPORT_BYTES, load } from "../../web/girderbasil.js";

const { girderbasil_answer, girderbasil_scoring, girderbasil_output } = LAYOUTS;

// A struct that functions answer: its size, and the bytes of its fields.
const ANSWER = { size: girderbasil_answer.size, fields: 16 };
const SCORING = { size: girderbasil_scoring.size, fields: 192 };
const OUTPUT = { size: girderbasil_output.size, fields: 16 + MOST_REPORT_BYTES };

// Each function: what it answers; what it only reads and what it fills or changes; what follows the answer's place among
// the words of its export, from the words of its parts; and its call in web/girderbasil.js, from its parts.
const FUNCTIONS = {
    girderbasil_read: {
        answer: ANSWER,
        kinds: [Uint8Array, Uint32Array],
        words: (sheet, table) => [...sheet, ...table],
        wrapped: (library, sheet, table) => library.read(sheet, table),
    },
    girderbasil_score: {
        answer: SCORING,
        kinds: [Uint32Array],
        words: (table) => table,
        wrapped: (library, table) => library.score(table),
    },
    girderbasil_write_report: {
        answer: ANSWER,
        kinds: [Uint32Array, Uint8Array],
        words: (table, report) => [...table, ...report],
        wrapped: (library, table, report) => library.writeReport(table, report),
    },
    girderbasil_diagnose: {
        answer: OUTPUT,
        kinds: [Uint8Array],
        words: (sheet) => sheet,
        wrapped: (library, sheet) => library.diagnose(sheet),
    },
    girderbasil_start: {
        answer: SCORING,
        kinds: [Uint32Array],
        words: (table, _, [totals]) => [totals, ...table],
        wrapped: (library, table, _, totals) => library.start(totals, table),
    },
    girderbasil_add_wall: {
        answer: SCORING,
        kinds: [Uint32Array, Uint32Array],
        words: ([wall], table, [totals]) => [totals, ...table, wall],
        wrapped: (library, wall, table, totals) => library.addWall(totals, table, wall),
    },
    girderbasil_delete_wall: {
        answer: SCORING,
        kinds: [Uint32Array, Uint32Array],
        words: (_, table, [totals], [row]) => [totals, ...table, row],
        wrapped: (library, [row], table, totals) => library.deleteWall(totals, table, row),
    },
};

const input = readFileSync(0);
let at = 0;

function take(bytes) {
    if (at + bytes > input.length) throw new Error("a call is cut short");
    at += bytes;
    return input.subarray(at - bytes, at);
}

// A buffer as an array of its own, and the part of it that is lent.
function takePart(Kind = Uint8Array) {
    const counts = take(12);
    const [before, length, after] = [0, 4, 8].map((offset) => counts.readUInt32LE(offset));
    const size = Kind.BYTES_PER_ELEMENT;
    const buffer = new Kind(before + length + after);
    new Uint8Array(buffer.buffer).set(take(buffer.length * size));
    return { buffer, before, length, lent: buffer.subarray(before, before + length) };
}

// The fields of an answer, in the struct's order, as bytes: numbers, several numbers, or bytes.
function fieldsOf(answer) {
    const parts = Object.values(answer).map((field) => (field instanceof Uint8Array ? field : bytesOf([field].flat())));
    return Buffer.concat(parts);
}

// Numbers as bytes, eight for each `bigint` and four for each other.
function bytesOf(numbers) {
    const Kind = typeof numbers[0] === "bigint" ? BigUint64Array : Uint32Array;
    return new Uint8Array(Kind.from(numbers).buffer);
}

// Calls web/girderbasil.js; the buffers are changed, or not, by it. Totals are six elements and, in a seventh, the rows.
function callWrapped(library, { wrapped }, parts) {
    const [given, filled, totals] = parts.map(({ lent }) => lent);
    const onSite = { held: totals.subarray(0, 6), rows: Number(totals[6] ?? 0) };
    const answer = wrapped(library, given, filled, onSite);
    if (totals.length > 0) totals[6] = BigInt(onSite.rows);
    return fieldsOf(answer);
}

const GUARD = 64;
const FILLING = 0xa5;

// The next address that is aligned for every element.
function aligned(address) {
    return Math.ceil(address / 8) * 8;
}

// Where each part's buffer begins: after another, the one that is filled or changed where the memory ends.
function placesOf(memory, from, [given, filled, totals]) {
    const afterGiven = aligned(from + given.buffer.byteLength);
    const end = afterGiven + totals.buffer.byteLength + filled.buffer.byteLength;
    const missing = end - memory.buffer.byteLength;
    if (missing > 0) memory.grow(Math.ceil(missing / 65536));
    return [from, memory.buffer.byteLength - filled.buffer.byteLength, afterGiven];
}

// Calls an export. The answer has bytes before and after it that must stay.
function callExport(exports, name, { answer: { size, fields }, words }, parts) {
    const answer = aligned(exports.__heap_base.value) + GUARD;
    const addresses = placesOf(exports.memory, aligned(answer + size + GUARD), parts);
    const memory = new Uint8Array(exports.memory.buffer);
    const guarded = memory.subarray(answer - GUARD, answer + size + GUARD).fill(FILLING);
    const places = parts.map(({ buffer, before, length }, each) => {
        const address = addresses[each];
        const place = memory.subarray(address, address + buffer.byteLength);
        place.set(new Uint8Array(buffer.buffer));
        const start = buffer.length === 0 ? 0 : address + before * buffer.BYTES_PER_ELEMENT;
        return { buffer, place, words: [start, BigInt(length)] };
    });

    exports[name](answer, ...words(...places.map((each) => each.words), parts[0].lent));

    if ([...guarded.subarray(0, GUARD), ...guarded.subarray(-GUARD)].some((byte) => byte !== FILLING)) {
        throw new Error(`${name} wrote beside its answer`);
    }
    for (const { buffer, place } of places) new Uint8Array(buffer.buffer).set(place);
    // What fills the totals' struct up is no field, and what it is after a call says nothing.
    const totals = parts[2].lent;
    if (totals.length > 0) totals[6] &= 0xffffffffn;
    return memory.slice(answer, answer + fields);
}

const module = await WebAssembly.compile(readFileSync(process.argv[2]));
const library = await load(module);
const { exports } = await WebAssembly.instantiate(module);
const answers = [];
while (at < input.length) {
    const name = take(32).toString("latin1").replace(/\0+$/, "");
    const described = FUNCTIONS[name];
    if (described === undefined) throw new Error(`there is no function ${name}`);
    const [Given, Filled] = described.kinds;
    const parts = [takePart(Given), takePart(Filled), takePart(BigUint64Array)];
    answers.push(
        process.argv[3] === "wrapped"
            ? callWrapped(library, described, parts)
            : callExport(exports, name, described, parts),
    );
    for (const { buffer } of parts) answers.push(new Uint8Array(buffer.buffer));
}
process.stdout.write(Buffer.concat(answers));
