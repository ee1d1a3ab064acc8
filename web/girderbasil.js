// @ts-check
/**
 * The proved library in JavaScript: the functions of include/girderbasil.h over the WebAssembly module that
 * `tools/archive wasm32` writes. Nothing of a house is computed here: arguments are copied into the module's memory,
 * one function is called, and its answer is copied out.
 *
 * As in the header, storage is lent: `read` and `writeReport` fill the array they are given, from its front, `start`,
 * `addWall` and `deleteWall` change the totals, the last two the table as well, and all of them leave it alone where they
 * refuse. An instance is for one thread; each worker loads its own.
 */

/** The bytes of a sheet's line. */
export const LINE = 65;
/** The numbers of a table's row. */
export const ROW = 8;
/** The most walls that a house can have. */
export const MOST_WALLS = 300;
/**
 * The most lines that a sheet, and rows that a table, can have: the house, three storeys, six of ends, the walls, the parts
 * and the dates.
 */
export const MOST_ROWS = 1 + 3 + 6 + MOST_WALLS + 1 + 1;
/** The bytes of the longest report. */
export const MOST_REPORT_BYTES = 7 * LINE;

/** The structs of the header: each one's size, and where its fields begin. */
export const LAYOUTS = Object.freeze({
    girderbasil_answer: Object.freeze({ size: 16, number: 0, row: 4, column: 8, count: 12 }),
    girderbasil_scoring: Object.freeze({
        size: 192,
        number: 0,
        row: 4,
        column: 8,
        scores: 12,
        count: 36,
        verdict: 40,
        started_by_31_may_1981: 44,
        hundredths: 48,
        remainders: 96,
        divisors: 144,
    }),
    girderbasil_output: Object.freeze({ size: 472, number: 0, row: 4, column: 8, count: 12, bytes: 16 }),
    girderbasil_totals: Object.freeze({ size: 56, held: 0, rows: 48 }),
});

/**
 * A count or a refusal.
 * @typedef {object} Answer
 * @property {number} number 0 where accepted, else the refusal's number
 * @property {number} row the refusal's place, counted from 1; 0 where it has none
 * @property {number} column
 * @property {number} count rows read or bytes written; 0 where refused
 */

/**
 * A record or a refusal. What has six places goes ground storey X, ground storey Y, next storey X, ..; unused places are 0.
 * For each score, `hundredths * divisor + remainder` is what was divided, as the header has it. That can be more than a
 * number holds exactly, so these three are of type `bigint`.
 * @typedef {object} Scoring
 * @property {number} number 0 where scored, else the refusal's number; then the record is all 0
 * @property {number} row
 * @property {number} column
 * @property {number[]} scores in hundredths, at most 999
 * @property {number} count how many scores there are: two a storey
 * @property {number} verdict 1 to 4
 * @property {number} startedBy31May1981 1 where work on the house started on that day or before; else 0
 * @property {bigint[]} hundredths the whole hundredths of each score, without its limit of 999
 * @property {bigint[]} remainders what was left over, smaller than the divisor
 * @property {bigint[]} divisors
 */

/**
 * What the scoring program prints for a sheet.
 * @typedef {object} Output
 * @property {number} number 0 where it is the report, else the refusal's number; then it is the refusal's line
 * @property {number} row
 * @property {number} column
 * @property {number} count how many bytes are printed, for a refusal too; the bytes after them are 0
 * @property {Uint8Array} bytes
 */

/**
 * What a surveyor keeps on site beside the table: `{ held: new BigUint64Array(6), rows: read.count }` to start with.
 * @typedef {object} Totals
 * @property {BigUint64Array} held the held strength in 0.000001 kN, in the six places that a scoring has
 * @property {number} rows how many of the table's rows are in use, from its first
 */

/** @typedef {Uint8Array | Uint32Array} Storage */

/**
 * Storage as an argument: `counted` where its length follows its address, `lent` where the function may change it.
 * @typedef {object} Place
 * @property {Storage} storage
 * @property {boolean} counted
 * @property {boolean} lent
 */

/** The most that an answer takes. */
const ANSWER = Math.max(...Object.values(LAYOUTS).map((layout) => layout.size));
/** The functions of the header. */
const FUNCTIONS = [
    "girderbasil_read",
    "girderbasil_score",
    "girderbasil_write_report",
    "girderbasil_diagnose",
    "girderbasil_start",
    "girderbasil_add_wall",
    "girderbasil_delete_wall",
];
const PAGE = 65536;
/** The places of a record's scores. */
const PLACES = [0, 1, 2, 3, 4, 5];

/**
 * Makes the library ready.
 * @param {BufferSource | WebAssembly.Module} source the bytes of girderbasil.wasm, or the module compiled from them
 * @returns {Promise<Girderbasil>}
 */
export async function load(source) {
    const module = /** @type {WebAssembly.Module} */ (
        tagOf(source) === "WebAssembly.Module" ? source : await WebAssembly.compile(bytesOf(source))
    );
    const names = WebAssembly.Module.exports(module).map((one) => one.name);
    const missing = [...FUNCTIONS, "memory", "__heap_base"].find((name) => !names.includes(name));
    if (missing !== undefined) {
        throw new TypeError(`load: this module is not girderbasil.wasm: it has no ${missing}`);
    }
    return new Girderbasil(await WebAssembly.instantiate(module));
}

/**
 * @param {any} source
 * @returns {BufferSource}
 */
function bytesOf(source) {
    if (ArrayBuffer.isView(source)) {
        return new Uint8Array(source.buffer, source.byteOffset, source.byteLength);
    }
    if (tagOf(source) !== "ArrayBuffer") {
        throw new TypeError(`load: the source must be the bytes of girderbasil.wasm or a module, not ${described(source)}`);
    }
    return source;
}

/** The library, with memory of its own. `load` makes one. */
class Girderbasil {
    /** @type {any} */
    #exports;
    /** @type {WebAssembly.Memory} */
    #memory;

    /** @param {WebAssembly.Instance} instance */
    constructor(instance) {
        this.#exports = instance.exports;
        this.#memory = this.#exports.memory;
    }

    /**
     * Reads a sheet into a lent table, eight numbers a line. `MOST_ROWS * ROW` numbers have room for any sheet.
     * @param {Uint8Array} sheet
     * @param {Uint32Array} table
     * @returns {Answer}
     */
    read(sheet, table) {
        const bytes = given(viewOf("read", "sheet", sheet, Uint8Array));
        const numbers = lent(viewOf("read", "table", table, Uint32Array));
        return answerAt(this.#call("girderbasil_read", bytes, numbers));
    }

    /**
     * Scores a table. After reading it is the first `count * ROW` numbers: `table.subarray(0, count * ROW)`.
     * @param {Uint32Array} table
     * @returns {Scoring}
     */
    score(table) {
        return scoringAt(this.#call("girderbasil_score", given(viewOf("score", "table", table, Uint32Array))));
    }

    /**
     * Writes a table's report into lent bytes. `MOST_REPORT_BYTES` have room for any report.
     * @param {Uint32Array} table
     * @param {Uint8Array} report
     * @returns {Answer}
     */
    writeReport(table, report) {
        const numbers = given(viewOf("writeReport", "table", table, Uint32Array));
        const bytes = lent(viewOf("writeReport", "report", report, Uint8Array));
        return answerAt(this.#call("girderbasil_write_report", numbers, bytes));
    }

    /**
     * What the scoring program prints for a sheet: the first `count` of the bytes.
     * @param {Uint8Array} sheet
     * @returns {Output}
     */
    diagnose(sheet) {
        return outputAt(this.#call("girderbasil_diagnose", given(viewOf("diagnose", "sheet", sheet, Uint8Array))));
    }

    /**
     * Fills in what the walls of a table's rows in use hold, and scores them. Set `totals.rows` first.
     * @param {Totals} totals
     * @param {Uint32Array} table
     * @returns {Scoring}
     */
    start(totals, table) {
        return this.#change("start", "girderbasil_start", totals, given(viewOf("start", "table", table, Uint32Array)));
    }

    /**
     * Adds a wall, the eight numbers of its row, after the last whose storey isn't above its own, and scores the totals.
     * @param {Totals} totals
     * @param {Uint32Array} table
     * @param {Uint32Array} wall
     * @returns {Scoring}
     */
    addWall(totals, table, wall) {
        const rows = lent(viewOf("addWall", "table", table, Uint32Array));
        const row = viewOf("addWall", "wall", wall, Uint32Array);
        requireLength("addWall", "wall", row, ROW);
        return this.#change("addWall", "girderbasil_add_wall", totals, rows, { ...given(row), counted: false });
    }

    /**
     * Deletes the wall at a row of the table, counted from 1, and scores the totals.
     * @param {Totals} totals
     * @param {Uint32Array} table
     * @param {number} row
     * @returns {Scoring}
     */
    deleteWall(totals, table, row) {
        const rows = lent(viewOf("deleteWall", "table", table, Uint32Array));
        const number = requireNumber("deleteWall", "row", row);
        return this.#change("deleteWall", "girderbasil_delete_wall", totals, rows, number);
    }

    /**
     * Calls a function that may change totals. They cross as the header's struct, which is copied out unless the function
     * refused.
     * @param {string} method
     * @param {string} name
     * @param {Totals} totals
     * @param {...(Place | number)} others
     * @returns {Scoring}
     */
    #change(method, name, totals, ...others) {
        const layout = LAYOUTS.girderbasil_totals;
        const held = viewOf(method, "totals.held", totals?.held, BigUint64Array);
        requireLength(method, "totals.held", held, PLACES.length);
        const rows = requireNumber(method, "totals.rows", totals.rows);
        const struct = new Uint8Array(layout.size);
        const fields = new DataView(struct.buffer);
        held.forEach((total, each) => fields.setBigUint64(layout.held + 8 * each, total, true));
        fields.setUint32(layout.rows, rows, true);
        const scoring = scoringAt(this.#call(name, { ...lent(struct), counted: false }, ...others));
        if (scoring.number === 0) {
            held.set(bigintsAt(fields, layout.held));
            totals.rows = numberAt(fields, layout.rows);
        }
        return scoring;
    }

    /**
     * Calls a function of the module with storage and numbers. In its memory the answer comes first, then all storage, one
     * after the other; the next call uses the same place. What was lent is copied out, unless the function refused: then it
     * left the storage as it was.
     * @param {string} name
     * @param {...(Place | number)} parameters
     * @returns {DataView} the answer's struct
     */
    #call(name, ...parameters) {
        const answer = aligned(this.#exports.__heap_base.value);
        /** @type {(number | bigint)[]} */
        const words = [];
        /** @type {(Place & { address: number })[]} */
        const places = [];
        let end = answer + aligned(ANSWER);
        for (const parameter of parameters) {
            if (typeof parameter === "number") {
                words.push(parameter);
                continue;
            }
            const { storage, counted } = parameter;
            words.push(end, ...(counted ? [BigInt(storage.length)] : []));
            places.push({ ...parameter, address: end });
            end = aligned(end + storage.byteLength);
        }
        this.#reserve(end);
        for (const { storage, address } of places) {
            this.#storage(storage, address).set(storage);
        }
        this.#exports[name](answer, ...words);
        const view = new DataView(this.#memory.buffer, answer, ANSWER);
        if (numberAt(view) === 0) {
            for (const { storage, address } of places.filter((place) => place.lent)) {
                storage.set(this.#storage(storage, address));
            }
        }
        return view;
    }

    /**
     * The place in the module's memory of as many elements as an array has.
     * @param {Storage} like
     * @param {number} address
     * @returns {Storage}
     */
    #storage(like, address) {
        const Kind = like instanceof Uint8Array ? Uint8Array : Uint32Array;
        return new Kind(this.#memory.buffer, address, like.length);
    }

    /**
     * Has the memory reach to an address. Where there is not so much, WebAssembly throws a RangeError.
     * @param {number} end
     */
    #reserve(end) {
        const missing = end - this.#memory.buffer.byteLength;
        if (missing > 0) {
            this.#memory.grow(Math.ceil(missing / PAGE));
        }
    }
}

/**
 * Storage that a function only reads.
 * @param {Storage} storage
 * @returns {Place}
 */
function given(storage) {
    return { storage, counted: true, lent: false };
}

/**
 * Storage that a function may change.
 * @param {Storage} storage
 * @returns {Place}
 */
function lent(storage) {
    return { storage, counted: true, lent: true };
}

/**
 * The next address that is aligned for every type that crosses.
 * @param {number} address
 */
function aligned(address) {
    return Math.ceil(address / 8) * 8;
}

/**
 * @param {DataView} view
 * @param {number} [offset]
 */
function numberAt(view, offset = 0) {
    return view.getUint32(offset, true);
}

/**
 * The numbers of 64 bits that stand beside the scores.
 * @param {DataView} view
 * @param {number} offset
 */
function bigintsAt(view, offset) {
    return PLACES.map((each) => view.getBigUint64(offset + 8 * each, true));
}

/**
 * @param {DataView} view
 * @returns {Answer}
 */
function answerAt(view) {
    const layout = LAYOUTS.girderbasil_answer;
    return { ...refusalAt(view, layout), count: numberAt(view, layout.count) };
}

/**
 * @param {DataView} view
 * @returns {Scoring}
 */
function scoringAt(view) {
    const layout = LAYOUTS.girderbasil_scoring;
    return {
        ...refusalAt(view, layout),
        scores: PLACES.map((each) => numberAt(view, layout.scores + 4 * each)),
        count: numberAt(view, layout.count),
        verdict: numberAt(view, layout.verdict),
        startedBy31May1981: numberAt(view, layout.started_by_31_may_1981),
        hundredths: bigintsAt(view, layout.hundredths),
        remainders: bigintsAt(view, layout.remainders),
        divisors: bigintsAt(view, layout.divisors),
    };
}

/**
 * @param {DataView} view
 * @returns {Output}
 */
function outputAt(view) {
    const layout = LAYOUTS.girderbasil_output;
    const bytes = new Uint8Array(view.buffer, view.byteOffset + layout.bytes, MOST_REPORT_BYTES);
    return { ...refusalAt(view, layout), count: numberAt(view, layout.count), bytes: bytes.slice() };
}

/**
 * The three fields that every answer begins with.
 * @param {DataView} view
 * @param {{ number: number, row: number, column: number }} layout
 */
function refusalAt(view, layout) {
    return {
        number: numberAt(view, layout.number),
        row: numberAt(view, layout.row),
        column: numberAt(view, layout.column),
    };
}

/**
 * What every array of numbers says of itself: its kind and where it stands. Taken from their common ancestor, it can be
 * asked of any value, also of an array from another frame, whose constructor is another.
 * @param {string | symbol} property
 * @returns {(value: unknown) => any}
 */
function arrayProperty(property) {
    const ancestor = Object.getPrototypeOf(Uint8Array.prototype);
    const { get } = /** @type {PropertyDescriptor} */ (Object.getOwnPropertyDescriptor(ancestor, property));
    return (value) => /** @type {() => any} */ (get).call(value);
}

const kindOf = arrayProperty(Symbol.toStringTag);
const bufferOf = arrayProperty("buffer");
const offsetOf = arrayProperty("byteOffset");
const lengthOf = arrayProperty("length");

/**
 * A plain view of an argument's elements.
 * @template {Uint8ArrayConstructor | Uint32ArrayConstructor | BigUint64ArrayConstructor} Kind
 * @param {string} method
 * @param {string} name
 * @param {unknown} value
 * @param {Kind} Kind
 * @returns {InstanceType<Kind>}
 */
function viewOf(method, name, value, Kind) {
    if (kindOf(value) !== Kind.name) {
        throw new TypeError(`${method}: the ${name} must be a ${Kind.name}, not ${described(value)}`);
    }
    try {
        return /** @type {any} */ (new Kind(bufferOf(value), offsetOf(value), lengthOf(value)));
    } catch {
        throw new TypeError(`${method}: the ${name}'s memory is gone: its buffer was handed over or made smaller`);
    }
}

/**
 * @param {string} method
 * @param {string} name
 * @param {{ length: number }} view
 * @param {number} length
 */
function requireLength(method, name, view, length) {
    if (view.length !== length) {
        throw new TypeError(`${method}: the ${name} must have ${length} numbers, not ${view.length}`);
    }
}

/**
 * A number as it crosses, of 32 bits and not below 0.
 * @param {string} method
 * @param {string} name
 * @param {unknown} value
 * @returns {number}
 */
function requireNumber(method, name, value) {
    if (typeof value === "number" && value === value >>> 0) {
        return value;
    }
    const found = typeof value === "number" ? value : described(value);
    throw new TypeError(`${method}: the ${name} must be a whole number of 32 bits, not ${found}`);
}

/** @param {unknown} value */
function described(value) {
    return value === undefined ? "nothing" : `a value of type ${tagOf(value)}`;
}

/**
 * The name of a value's type.
 * @param {unknown} value
 */
function tagOf(value) {
    return Object.prototype.toString.call(value).slice("[object ".length, -1);
}
