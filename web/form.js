// The form: a field for each option that the command and the kind have.
"use strict";

// What a value is called in a list.
function titleOf(name, value) {
    if (name === "kind") return finder.kinds[value].title;
    return finder.says[value] ?? value;
}

// The control of an option.
function control(name, option) {
    const hint = option.hint ? { "aria-describedby": `${name}-hint` } : {};
    if (!option.values) {
        return made("input", { id: name, type: "text", autocomplete: "off", spellcheck: "false", autocapitalize: "off",
            placeholder: option.absent ?? "", ...hint });
    }
    const select = made("select", { id: name, ...hint });
    select.append(...option.values.map((value) => made("option", { value }, titleOf(name, value))));
    return select;
}

// The field of an option: its label, its control, and what is said below.
function field(name, option) {
    const box = made("div", { class: `field of-${name}`, "data-option": name }, made("label", { for: name }, option.label),
        control(name, option));
    if (option.hint) box.append(made("small", { id: `${name}-hint` }, option.hint));
    return box;
}

// The commands, as a group of which one is chosen.
function commandChoice(name) {
    const input = made("input", { type: "radio", name: "command", id: `command-${name}`, value: name });
    input.checked = name === "find";
    return made("label", { for: `command-${name}` }, input, made("span", {}, name));
}

// What the form asks for, whether or not the command has each option.
finder.currentAsked = () => {
    const asked = { command: document.querySelector("input[name=command]:checked").value };
    for (const name of Object.keys(finder.options)) asked[name] = part(name).value.trim();
    return asked;
};

// The words of what the form asks for.
finder.currentWords = () =>
    finder.words(finder.currentAsked(), finder.files.map(({ name }) => name), finder.certificate?.name);

// Keeps the span of a polynomial and that of files beside one another, since one pair of fields shows both.
finder.spans = { scalar: ["-50", "50"], files: ["", ""], shown: "files" };
function showSpan(command) {
    const name = command === "scalar" ? "scalar" : "files", spans = finder.spans;
    if (name === spans.shown) return;
    spans[spans.shown] = [part("from").value, part("to").value];
    [part("from").value, part("to").value] = spans[name];
    spans.shown = name;
}

// Fills the form with what is asked of files, and clears the rest of that.
finder.fill = (asked) => {
    const command = asked.command ?? (["find", "cert", "verify"].includes(finder.currentAsked().command)
        ? finder.currentAsked().command : "find");
    part(`command-${command}`).checked = true;
    showSpan(command);
    for (const [name, option] of Object.entries(finder.options)) {
        if (!option.commands.includes("find") && !(name in asked)) continue;
        part(name).value = asked[name] || option.absent || (option.values ? part(name).value || option.values[0] : "");
    }
    part("example").value = "";
    const isAsked = ([name, option]) => option.isRare && asked[name] && asked[name] !== option.absent;
    part("more").open = Object.entries(finder.options).some(isAsked);
    finder.changed();
};

// Fills in the radii of bodies if they stand empty or were filled in so.
function fillRadii() {
    for (const [radius, body] of [["radius1", "target"], ["radius2", "second"]]) {
        const known = Object.values(finder.radii);
        const value = part(radius).value;
        if (value === "" || known.includes(value)) part(radius).value = finder.radii[part(body).value] ?? "";
    }
}

// Hides a choice of a list, or shows it.
function offer(option, isOffered) {
    option.hidden = !isOffered;
    option.disabled = !isOffered;
}

// Leaves those kinds and relations that the command and the kind have.
function showChoices(asked) {
    for (const option of part("kind").options) offer(option, asked.command !== "set" || finder.setKinds.includes(option.value));
    if (part("kind").selectedOptions[0]?.disabled) part("kind").value = "station";
    for (const option of part("relation").options) {
        const words = finder.kinds[part("kind").value][option.value];
        const needsNumbers = finder.options.ref2.relations.includes(option.value);
        offer(option, !needsNumbers || NUMBERS.includes(part("kind").value));
        if (words) option.textContent = `${option.value}: ${words}`;
    }
    if (part("relation").selectedOptions[0]?.disabled) part("relation").value = "less";
}

// What stands below a number and in an empty field, by the kind and the files.
function showHints(asked) {
    part("ref-hint").textContent = { sep: "cosine of the angle", coord: "km; 0 if empty" }[asked.kind] ?? "km";
    const span = asked.command === "scalar" ? ["a time", "a later one"] : finder.span ?? ["", ""];
    part("from").placeholder = span[0] || "2000-05-01T00:00:00";
    part("to").placeholder = span[1] || "2000-06-01T00:00:00";
    part("from-hint").textContent = asked.command === "scalar" ? "a whole number" : "TDB, or seconds since J2000";
}

// Shows the fields that are needed, and the command, after any change.
finder.changed = () => {
    showChoices(finder.currentAsked());
    const asked = finder.currentAsked(), command = finder.commands[asked.command];
    for (const box of document.querySelectorAll("[data-option]")) box.hidden = !finder.hasOption(box.dataset.option, asked);
    part("more").hidden = !WITH_LIMITS.includes(asked.command);
    part("certificate-field").hidden = asked.command !== "verify";
    part("example-field").hidden = !SEARCHES.includes(asked.command);
    part("command-says").textContent = command.says;
    part("run").textContent = command.button;
    showHints(asked);
    part("command").textContent = finder.shown(finder.currentWords());
};

// Makes the form, and listens for its changes.
finder.makeForm = () => {
    part("commands").append(made("div", { class: "choices" }, ...Object.keys(finder.commands).map(commandChoice)));
    for (const [name, option] of Object.entries(finder.options)) {
        part(option.isRare ? "more-fields" : "fields").append(field(name, option));
    }
    part("example").append(...Object.keys(finder.examples).map((name) => made("option", { value: name }, name)));
    part("form").addEventListener("input", (event) => {
        document.querySelectorAll("[aria-invalid]").forEach((each) => each.removeAttribute("aria-invalid"));
        if (event.target.id === "example") return;
        if (event.target.name === "command") showSpan(event.target.value);
        else part("example").value = "";
        if (["kind", "target", "second"].includes(event.target.id) && DISCS.includes(part("kind").value)) fillRadii();
        finder.changed();
    });
    part("example").addEventListener("change", () => {
        const name = part("example").value, example = finder.examples[name];
        if (example) finder.fill(example.command ? example : { ...example, command: "find" });
        part("example").value = name;
    });
    part("quad").value = "1,0,-100";
    part("blocks").value = "3";
    part("seed").value = "7";
    finder.fill(finder.examples["Jupiter meets Saturn"]);
};
