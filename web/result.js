// The result: windows as a picture and tables, or the program's line of an error.
"use strict";

const MAX_ROWS = 500, MAX_LETTERS = 200000;
// The exit statuses, by docs/guide/usage.md.
const STATUSES = {
    2: "the command line is invalid", 3: "the files have a fault, the first one", 4: "a file is not there, or cannot be read",
    6: "the span is not one within the files", 7: "the files do not have this event", 8: "it ran out of memory",
    9: "the search would cut the span into too many pieces", 10: "the certificate breaks a rule, first in this line",
    64: "the words or the files are not laid out as the module takes them",
};

// A date and a time, between which a line may break.
function timeCell(time) {
    const [date, clock] = time.split("T");
    return made("td", {}, made("span", {}, date), ...(clock ? [" ", made("span", {}, clock)] : []));
}

// A table with heads, of which more rows can be asked for.
function table(caption, heads, rows, toRow) {
    const body = made("tbody", {}, ...rows.slice(0, MAX_ROWS).map(toRow));
    const parts = [made("div", { class: "wide" }, made("table", {}, made("caption", {}, caption),
        made("thead", {}, made("tr", {}, ...heads.map((head) => made("th", { scope: "col" }, head)))), body))];
    if (rows.length > MAX_ROWS) {
        const all = made("button", { type: "button", onclick: () => {
            body.append(...rows.slice(MAX_ROWS).map(toRow));
            all.remove();
        } }, `Show all ${rows.length.toLocaleString("en")} rows`);
        parts.push(all);
    }
    return parts;
}

// The table of a report's windows.
function windowTable(report) {
    const isSet = report.end[0] === "sure", tick = report.request.includes(" tick 1000 ") ? 0.001 : 1;
    const unit = report.span?.[0].includes("T") ? " (TDB)" : "";
    const heads = [`First${unit}`, `Last${unit}`, "What", ...(isSet ? ["Length"] : [])];
    const caption = `${finder.count(report.windows.length, isSet ? "span" : "window")}, from early to late`;
    return table(caption, heads, report.windows, (window) => made("tr", { class: laneOf(window) },
        timeCell(window.first), timeCell(window.last),
        made("td", {}, made("span", { class: "what" }, window.sort), window.turn ? ` ${window.turn}` : ""),
        ...(isSet ? [made("td", {}, finder.length(window, tick))] : [])));
}

// The table of the columns of files.
function columnTable(report) {
    return table("The columns of the files", ["Column", "Coefficients", "Granules"], report.columns, (row) =>
        made("tr", {}, made("th", { scope: "row" }, row[0]), ...row.slice(1).map((each) => made("td", {}, each))));
}

// What rising and falling mean for a kind, beside their signs.
function legend(report, asked) {
    const kind = finder.kinds[asked.kind], isSet = report.end?.[0] === "sure", parts = [];
    if (!SEARCHES.includes(asked.command) || !kind) return parts;
    const say = (lane, words) => parts.push(made("span", { class: lane }, made("b", {}, lane), `: ${words}`));
    if (isSet) {
        say("sure", `surely ${kind[asked.relation] ?? `the value is ${asked.relation} both numbers`}`);
        say("possible", "each such time lies in one of these");
        return parts;
    }
    for (const lane of ["rise", "fall"]) if (report.windows.some((window) => window.turn === lane)) say(lane, kind[lane]);
    if (report.windows.some((window) => window.sort === "undecided")) say("undecided", "none, one or more events");
    return parts;
}

// Draws the picture as wide as its place.
finder.draw = () => {
    const { report } = finder.shownResult ?? {};
    part("figure").hidden = !report?.windows.length;
    if (!report?.windows.length) return;
    part("picture").replaceChildren(finder.picture(report, Math.max(280, Math.floor(part("picture").clientWidth))));
};

// A link that saves bytes as a file.
function download(words, name, bytes) {
    const address = URL.createObjectURL(new Blob([bytes], { type: "text/plain" }));
    finder.addresses.push(address);
    return made("a", { class: "button", href: address, download: name }, words);
}

// What can be saved of a result, and what can be done with a certificate.
function showDownloads(report, asked, bytes) {
    const isCertificate = report.command === "CERT";
    const words = [asked.command, ...(SEARCHES.includes(asked.command) ? [asked.kind, asked.target] : [])];
    const name = `${words.join("-")}.${isCertificate ? "cert" : "txt"}`;
    part("downloads").hidden = false;
    part("downloads").append(download(isCertificate ? "Save the certificate" : "Save the text", name, bytes));
    if (!isCertificate) return;
    const verify = async () => {
        await finder.takeCertificate(name, new Blob([bytes]));
        finder.search();
    };
    part("downloads").append(made("button", { type: "button", onclick: verify }, "Verify it here"));
}

// Clears the result.
finder.clear = () => {
    (finder.addresses ?? []).forEach((address) => URL.revokeObjectURL(address));
    finder.addresses = [];
    finder.shownResult = null;
    for (const name of ["refusal", "figure", "downloads", "report"]) part(name).hidden = true;
    for (const name of ["tables", "picture", "legend", "downloads", "refusal", "text"]) part(name).replaceChildren();
};

// Shows the line of an error, and marks the field that it names.
function showRefusal(status, line) {
    part("refusal").hidden = false;
    part("refusal").append(made("code", {}, line.trimEnd()),
        ...(STATUSES[status] ? [made("p", {}, `Status ${status}: ${STATUSES[status]}.`)] : []));
    const named = /63 BadValue (\w+)/.exec(line)?.[1];
    if (named && part(named)) part(named).setAttribute("aria-invalid", "true");
}

// Shows an answer.
finder.show = (answer, asked) => {
    const text = new TextDecoder().decode(answer.text), seconds = (answer.milliseconds / 1000).toFixed(2);
    if (answer.status !== 0) {
        part("status").textContent = answer.status > 0 ? `Refused after ${seconds} s.` : "The search did not end.";
        return showRefusal(answer.status, text);
    }
    const report = finder.read(text);
    finder.shownResult = { report, asked };
    part("status").textContent = `${finder.sentence(report)}. It took ${seconds} s.`;
    part("legend").replaceChildren(...legend(report, asked));
    if (report.columns.length) part("tables").append(...columnTable(report));
    else if (report.windows.length) part("tables").append(...windowTable(report));
    finder.draw();
    showDownloads(report, asked, answer.text);
    part("report").hidden = false;
    part("report").open = !report.windows.length && text.length < 4000 && !report.columns.length;
    const isLong = text.length > MAX_LETTERS;
    part("text").textContent = isLong ? `${text.slice(0, MAX_LETTERS)}\n.. and more: save the text` : text;
    return undefined;
};
