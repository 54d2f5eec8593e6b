// Calls the module. Its one call, and the bytes that it takes, are those of include/finder.h.
"use strict";

// No file of more bytes is read, by docs/guide/formats.md; one byte more shows that it is too large.
const MAX_BYTES = 268435456;
const FIRST_ROOM = 1 << 22;
const NO_ROOM = 5, OUT_OF_MEMORY = 8;

const bytesOf = (text) => new TextEncoder().encode(text);

// What stands before the bytes of a file: its name, a byte 0, and their number in 8 bytes.
function headOfFile(name, length) {
    const named = bytesOf(`${name}\0`), head = new Uint8Array(named.length + 8);
    head.set(named);
    new DataView(head.buffer).setBigUint64(named.length, BigInt(length), true);
    return head;
}

// The bytes of files, in pieces. One that cannot be read is left out, and is refused as one that is not there.
async function piecesOfFiles(files) {
    const pieces = [];
    for (const { name, blob } of files) {
        const bytes = await blob.slice(0, MAX_BYTES + 1).arrayBuffer().catch(() => null);
        if (bytes) pieces.push(headOfFile(name, bytes.byteLength), new Uint8Array(bytes));
    }
    return pieces;
}

// Takes memory of the module; 0 is no place in it.
function takeBlock(exports, length) {
    const place = exports.take_block(BigInt(length));
    if (!place) throw new RangeError("out of memory");
    return place;
}

// Writes pieces into memory of the module, one after the other, and returns where they are and how long.
function writePieces(exports, pieces) {
    const length = pieces.reduce((sum, piece) => sum + piece.length, 0), place = takeBlock(exports, length);
    let at = Number(place);
    for (const piece of pieces) {
        new Uint8Array(exports.memory.buffer).set(piece, at);
        at += piece.length;
    }
    return [place, BigInt(length)];
}

// Calls the module with a text of so much room, and again with more if the text is longer.
function callModule(exports, words, files, room) {
    const text = takeBlock(exports, room), length = takeBlock(exports, 8);
    const status = exports.finder_call(...words, ...files, text, BigInt(room), length);
    const count = Number(new DataView(exports.memory.buffer).getBigUint64(Number(length), true));
    if (status === NO_ROOM && count > room) {
        exports.give_block(text);
        return callModule(exports, words, files, count);
    }
    return { status, text: new Uint8Array(exports.memory.buffer).slice(Number(text), Number(text) + count) };
}

// Answers words over files, in memory of its own: the status, the text, and the milliseconds of the call.
async function answerWords(module, words, files) {
    const pieces = await piecesOfFiles(files), start = performance.now();
    const ended = (answer) => ({ ...answer, milliseconds: performance.now() - start });
    try {
        const { exports } = await WebAssembly.instantiate(module, {});
        const given = writePieces(exports, [bytesOf(words.map((word) => `${word}\0`).join(""))]);
        return ended(callModule(exports, given, writePieces(exports, pieces), FIRST_ROOM));
    } catch (error) {
        const isFull = error.message === "out of memory";
        const line = isFull ? "finder: out of memory\n" : `The module stopped: ${error.message}\n`;
        return ended({ status: isFull ? OUT_OF_MEMORY : -1, text: bytesOf(line) });
    }
}

// What a worker runs, which has only its text: the functions above. It says that it is there, and answers one message.
const WORKER = `
const MAX_BYTES = ${MAX_BYTES}, FIRST_ROOM = ${FIRST_ROOM}, NO_ROOM = ${NO_ROOM}, OUT_OF_MEMORY = ${OUT_OF_MEMORY};
const bytesOf = ${bytesOf};
${[headOfFile, piecesOfFiles, takeBlock, writePieces, callModule, answerWords].join("\n")}
onmessage = async ({ data }) => postMessage(await answerWords(data.module, data.words, data.files));
postMessage("ready");`;

// The module, compiled once: it is packed by gzip and in base64 in module.js, since a page of a folder may read no file.
finder.module = () => {
    finder.compiled ??= (async () => {
        const packed = Uint8Array.from(atob(finder.packed), (letter) => letter.charCodeAt(0));
        const stream = new Blob([packed]).stream().pipeThrough(new DecompressionStream("gzip"));
        return WebAssembly.compile(await new Response(stream).arrayBuffer());
    })();
    return finder.compiled;
};

// A worker that is ready, or null if the browser refuses one.
function newWorker() {
    return new Promise((resolve) => {
        try {
            const address = URL.createObjectURL(new Blob([WORKER], { type: "text/javascript" }));
            const worker = new Worker(address);
            worker.onmessage = () => {
                URL.revokeObjectURL(address);
                resolve(worker);
            };
            worker.onerror = () => {
                worker.terminate();
                resolve(null);
            };
        } catch {
            resolve(null);
        }
    });
}

// The answer of a worker; a worker that fails is reported as a module that stopped.
function answerOf(worker, message) {
    return new Promise((resolve) => {
        const fail = (event) => {
            const text = bytesOf(`The module stopped: ${event.message || "the browser ended it"}\n`);
            resolve({ status: -1, text, milliseconds: 0 });
        };
        worker.onmessage = ({ data }) => resolve(data);
        worker.onerror = fail;
        worker.onmessageerror = fail;
        worker.postMessage(message);
    });
}

// Starts a search of words over files, each a name and a blob: its answer, which is null if it is stopped. A search that the
// page itself has to run cannot be stopped.
finder.start = (words, files) => {
    let stop = () => {};
    const stopped = new Promise((resolve) => {
        stop = () => resolve(null);
    });
    const searched = async () => {
        const module = await finder.module(), worker = finder.refusesWorkers ? null : await newWorker();
        finder.refusesWorkers = !worker;
        if (!worker) return answerWords(module, words, files);
        const answer = await Promise.race([answerOf(worker, { module, words, files }), stopped]);
        worker.terminate();
        return answer;
    };
    return { answer: Promise.race([searched(), stopped]), stop };
};
