// A report of the program, read into its parts.
"use strict";

const DAY = 86400;

// A time of a report as a number of seconds since J2000, or a whole number as it stands.
finder.number = (time) => {
    const found = /^([+-]?\d+)-(\d\d)-(\d\d)T(\d\d):(\d\d):(\d\d(?:\.\d+)?)$/.exec(time);
    if (!found) return Number(time);
    const [year, month, day, hour, minute, second] = found.slice(1).map(Number);
    const at = new Date(0);
    at.setUTCFullYear(year, month - 1, day);
    return (at.getTime() - Date.UTC(2000, 0, 1, 12)) / 1000 + hour * 3600 + minute * 60 + second;
};

// The request that the line FIND of a report or a certificate repeats, as a form has it.
finder.asked = (line) => {
    const words = line.split(" ");
    if (words[0] !== "FIND") return null;
    const after = (name, step = 1) => words[words.indexOf(name) + step] ?? "";
    const given = (value) => (value === "-" ? "" : value);
    const kind = words[1], values = given(after("values")).split(",");
    const asked = { kind, target: after("target"), second: given(after("second")), observer: after("observer"),
        frame: after("frame"), axis: given(after("axis")), dir: after("dir"), width: after("width"), depth: after("depth"),
        cut: after("cut"), from: after("span"), to: after("span", 2), tick: words.includes("tick") ? after("tick") : "1" };
    if (["any", "full", "annular"].includes(kind)) [asked.radius1, asked.radius2] = values;
    else asked.ref = values[0];
    return asked;
};

// What each line of a report adds, by its first word.
const LINES = {
    C: (report, [first, last, turn]) => report.windows.push({ sort: "certain", first, last, turn }),
    U: (report, [first, last]) => report.windows.push({ sort: "undecided", first, last, turn: "" }),
    S: (report, [first, last]) => report.windows.push({ sort: "sure", first, last, turn: "" }),
    P: (report, [first, last]) => report.windows.push({ sort: "possible", first, last, turn: "" }),
    L: (report) => { report.leaves += 1; },
    COLUMN: (report, [body, , coefficients, , granules]) => report.columns.push([body, coefficients, granules]),
    CHECK: (report, words) => { report.summary = words; },
    END: (report, words) => { report.end = words; },
    VERIFIED: (report, words) => { report.verified = words[1]; },
};

// A report in its parts: the line of its request, the span, its windows, and its last counts.
finder.read = (text) => {
    const report = { command: "", request: "", span: null, windows: [], leaves: 0, columns: [], summary: null, end: null,
        verified: null };
    for (const line of text.split("\n")) {
        const [word, ...words] = line.split(" ");
        if (LINES[word]) LINES[word](report, words);
        else if (!report.command) report.command = word;
        if (!report.request && ["FIND", "SET", "SCALAR", "GEN"].includes(word)) report.request = line;
    }
    const words = report.request.split(" "), at = words.indexOf("span");
    if (at > 0) report.span = words.slice(at + 1, at + 3);
    else if (report.request.startsWith("SCALAR")) report.span = words.slice(-2);
    else if (report.windows.length) report.span = [report.windows[0].first, report.windows.at(-1).last];
    return report;
};

// A time without a clock that shows midnight.
const dateOnly = (time) => time.replace("T00:00:00", "");

// A count and what it counts.
finder.count = (number, one, more = `${one}s`) => `${Number(number).toLocaleString("en")} ${Number(number) === 1 ? one : more}`;

// What a report says in a sentence.
finder.sentence = (report) => {
    const parts = [];
    if (report.command === "CERT") parts.push(`A certificate of ${finder.count(report.leaves, "piece")}`);
    else if (report.summary) {
        const [, start, , end, , , , blocks] = report.summary;
        parts.push(`${dateOnly(start)} to ${dateOnly(end)}, ${finder.count(blocks, "block")}`);
    } else if (report.end?.[0] === "sure") parts.push(`${finder.count(report.end[1], "sure span")}, ${report.end[3]} possible`);
    else if (report.end) parts.push(`${finder.count(report.end[1], "certain window")}, ${report.end[3]} undecided`);
    if (report.verified) parts.push(`verified, ${finder.count(report.verified, "piece")}`);
    return parts.join("; ");
};

// How long a span is, from the first of its times to the last, in words; seconds are counted with both ends.
finder.length = (window, tick) => {
    const seconds = finder.number(window.last) - finder.number(window.first) + tick;
    const days = Math.floor(seconds / DAY), left = seconds - days * DAY;
    const clock = [Math.floor(left / 3600), Math.floor(left / 60) % 60, Math.floor(left % 60)];
    return `${days ? `${days} d ` : ""}${clock.map((part) => String(part).padStart(2, "0")).join(":")}`;
};
