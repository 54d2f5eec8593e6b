// The files and the certificate that were chosen or dropped. They are kept as the browser gives them, and never sent.
"use strict";

finder.files = [];
finder.certificate = null;
const part = (name) => document.getElementById(name);

// An element of the page with a text or elements in it.
function made(name, attributes, ...inside) {
    const element = document.createElement(name);
    for (const [key, value] of Object.entries(attributes)) {
        if (key.startsWith("on")) element.addEventListener(key.slice(2), value);
        else element.setAttribute(key, value);
    }
    element.append(...inside);
    return element;
}

// A number of bytes in words.
finder.size = (bytes) => (bytes < 1e6 ? `${Math.ceil(bytes / 1000)} kB` : `${(bytes / 1e6).toFixed(1)} MB`);

// A button beside a file, whose sign a reader for the blind replaces by words.
function fileButton(sign, words, isOff, act) {
    const button = made("button", { type: "button", "aria-label": words, title: words, onclick: act }, sign);
    button.disabled = isOff;
    return button;
}

// Moves a file by so many places, or takes it away, and keeps the focus in the list.
function changeFile(at, step) {
    const [file] = finder.files.splice(at, 1);
    if (step) finder.files.splice(at + step, 0, file);
    finder.showFiles();
    (part("list").querySelector(`li:nth-child(${at + 1 + step}) button:not(:disabled)`) ?? part("files")).focus();
}

// Shows the list of files, and has them checked.
finder.showFiles = () => {
    const last = finder.files.length - 1;
    part("list").replaceChildren(...finder.files.map(({ name, blob }, at) => made("li", {},
        made("span", { class: "name" }, name), made("span", { class: "size" }, finder.size(blob.size)),
        fileButton("↑", `Move ${name} up`, at === 0, () => changeFile(at, -1)),
        fileButton("↓", `Move ${name} down`, at === last, () => changeFile(at, 1)),
        fileButton("×", `Remove ${name}`, false, () => changeFile(at, 0)))));
    finder.changed();
    finder.checkFiles();
};

// Says under the files what the command `check` says of them.
finder.checkFiles = async () => {
    finder.checking?.stop();
    part("summary").className = "";
    if (!finder.files.length) return part("summary").replaceChildren();
    part("summary").replaceChildren("Reading …");
    const run = finder.start(["check", ...finder.nameWords()], [...finder.files]);
    finder.checking = run;
    const answer = await run.answer.catch(() => null);
    if (!answer || finder.checking !== run) return undefined;
    const text = new TextDecoder().decode(answer.text);
    part("summary").className = answer.status ? "wrong" : "right";
    const report = answer.status ? null : finder.read(text);
    finder.span = report ? [report.summary[1], report.summary[3]] : ["", ""];
    const said = report && `${finder.sentence(report)}, ${finder.count(report.columns.length, "column")}.`;
    part("summary").replaceChildren(said ?? text);
    return finder.changed();
};

// The names of the files as words, behind what keeps one that begins with a sign from being an option.
finder.nameWords = () => {
    const names = finder.files.map(({ name }) => name);
    return [...(names.some((name) => name.startsWith("-")) ? ["--"] : []), ...names];
};

// Takes a certificate, and fills the form with its request.
finder.takeCertificate = async (name, blob) => {
    const text = await blob.slice(0, 4096).text();
    finder.certificate = { name: finder.files.some((file) => file.name === name) ? `${name}.cert` : name, blob };
    part("certificate-name").textContent = finder.certificate.name;
    const asked = finder.asked(text.split("\n")[1] ?? "");
    finder.fill({ ...(asked ?? finder.currentAsked()), command: "verify" });
};

// Where a file stands among others: a header comes first, and blocks by the Julian date at which the first of them begins.
async function placeOf(blob) {
    const text = await blob.slice(0, 200).text();
    if (/^\s*KSIZE/.test(text)) return -Infinity;
    const date = /^\s*\d+\s+\d+\s+([\d.+-]+)(?:[DE]([+-]?\d+))?/i.exec(text);
    return date ? Number(`${date[1]}e${date[2] ?? 0}`) : Infinity;
}

// Takes files, in the order in which they have to be read. A certificate begins with its word, and what has the name of a
// file replaces it.
finder.takeFiles = async (files) => {
    let isNew = false;
    for (const file of [...files]) {
        if ((await file.slice(0, 5).text()) === "CERT ") {
            await finder.takeCertificate(file.name, file);
            continue;
        }
        finder.files = finder.files.filter(({ name }) => name !== file.name);
        finder.files.push({ name: file.name, blob: file, place: await placeOf(file) });
        isNew = true;
    }
    if (!isNew) return;
    finder.files.sort((one, other) => (one.place < other.place ? -1 : Number(one.place > other.place)));
    finder.showFiles();
};

// Listens for files that are chosen or dropped.
finder.listenForFiles = () => {
    for (const name of ["files", "certificate"]) {
        part(name).addEventListener("change", async (event) => {
            const files = [...event.target.files];
            event.target.value = "";
            if (name === "files") await finder.takeFiles(files);
            else if (files.length) await finder.takeCertificate(files[0].name, files[0]);
        });
    }
    const drags = (event) => [...(event.dataTransfer?.types ?? [])].includes("Files");
    addEventListener("dragover", (event) => {
        if (!drags(event)) return;
        event.preventDefault();
        document.body.classList.add("dropping");
    });
    addEventListener("dragleave", (event) => { if (!event.relatedTarget) document.body.classList.remove("dropping"); });
    addEventListener("drop", (event) => {
        if (!drags(event)) return;
        event.preventDefault();
        document.body.classList.remove("dropping");
        finder.takeFiles(event.dataTransfer.files);
    });
};
