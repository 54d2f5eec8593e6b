// The commands, kinds and options of the program as docs/guide/usage.md has them, and the words that a form makes of them.
"use strict";

globalThis.finder = {};

finder.bodies = [
    "mercury", "venus", "emb", "mars", "jupiter", "saturn", "uranus", "neptune", "pluto", "moon", "sun", "earth",
];

// A command: what it is for, whether it reads files, and what its button says.
finder.commands = {
    find: { says: "Searches the files for an event, and prints its windows.", readsFiles: true, button: "Search" },
    set: { says: "Prints the times at which a function has a relation to a number.", readsFiles: true, button: "Search" },
    cert: { says: "Searches in the same way, and writes a certificate for others to check.", readsFiles: true,
        button: "Certify" },
    verify: { says: "Checks a certificate against the files, and prints its windows.", readsFiles: true, button: "Verify" },
    check: { says: "Reads the files, and prints a summary of them.", readsFiles: true, button: "Check" },
    scalar: { says: "Searches P t² + Q t + R for its turns about 0, without a file.", readsFiles: false, button: "Search" },
    gen: { says: "Makes a text from a number, and searches it for conjunctions of Mercury and Venus.", readsFiles: false,
        button: "Search" },
};

// A kind: its name in words, what its events are, and what it means that its function rises or falls.
finder.kinds = {
    coord: { title: "coordinate", rise: "the coordinate grows past the number", fall: "it shrinks past it",
        atleast: "the coordinate is at least the number", less: "it is below the number" },
    radius: { title: "distance", rise: "the distance grows past the number", fall: "it shrinks past it",
        atleast: "the distance is at least the number", less: "it is below the number" },
    apsis: { title: "apsides: least and greatest distance", rise: "the distance is least", fall: "it is greatest",
        atleast: "the distance grows, or rests", less: "it shrinks" },
    conj: { title: "conjunction", rise: "the second body’s longitude grows past the target’s",
        fall: "the target’s longitude grows past the second body’s" },
    oppo: { title: "opposition", rise: "the target’s longitude grows past the one opposite to the second body’s",
        fall: "that one grows past the target’s" },
    station: { title: "station: the motion in longitude turns", rise: "it turns from backward to forward",
        fall: "it turns from forward to backward", atleast: "the body moves forward in longitude, or rests",
        less: "it is retrograde" },
    sep: { title: "separation passes an angle", rise: "it grows smaller than the angle", fall: "it grows greater than it",
        atleast: "the separation is at most the angle of the cosine", less: "it is greater" },
    sepext: { title: "least and greatest separation", rise: "the separation is greatest", fall: "it is least",
        atleast: "the bodies approach, or rest", less: "they part" },
    any: { title: "any: discs begin or end to overlap", rise: "the target’s disc begins to cover a part",
        fall: "it ends to cover a part" },
    full: { title: "full: one disc covers the other", rise: "the target’s disc begins to cover all",
        fall: "it ends to cover all" },
    annular: { title: "annular: one disc lies within the other", fall: "it ends to lie within it",
        rise: "the target’s disc begins to lie within the second’s" },
};
finder.setKinds = ["coord", "radius", "apsis", "station", "sep", "sepext"];

const PAIRS = ["conj", "oppo", "sep", "sepext", "any", "full", "annular"];
const DISCS = ["any", "full", "annular"];
const SEARCHES = ["find", "cert", "verify", "set"];
const WITH_DIRECTION = ["find", "cert", "verify", "scalar"];
const WITH_LIMITS = [...SEARCHES, "scalar"];
const NUMBERS = ["coord", "radius", "sep"];

// An option: its label, its values if it has a list of them, what it is without, which commands and kinds have it, whether
// it stands among those that are needed seldom, and what else is said of it.
finder.options = {
    kind: { label: "Kind of event", values: Object.keys(finder.kinds), commands: SEARCHES, isGiven: true },
    relation: { label: "Relation", values: ["less", "atleast", "within", "outside"], commands: ["set"], isGiven: true },
    target: { label: "Target", values: finder.bodies, commands: SEARCHES, isGiven: true },
    second: { label: "Second body", values: finder.bodies, commands: SEARCHES, kinds: PAIRS, isGiven: true },
    observer: { label: "Observer", values: ["ssb", ...finder.bodies], absent: "ssb", commands: SEARCHES,
        hint: "ssb: barycentre of the solar system" },
    frame: { label: "Frame", values: ["eq", "ecl"], absent: "eq", commands: SEARCHES,
        kinds: ["coord", "conj", "oppo", "station"], hint: "eq: the file’s, ecl: ecliptic of J2000" },
    axis: { label: "Axis", values: ["x", "y", "z"], commands: SEARCHES, kinds: ["coord"], isGiven: true },
    ref: { label: "Number", commands: SEARCHES, kinds: NUMBERS, hint: "km" },
    ref2: { label: "Second number", commands: ["set"], kinds: NUMBERS, relations: ["within", "outside"], hint: "as the first" },
    radius1: { label: "Target’s radius", commands: SEARCHES, kinds: DISCS, hint: "km" },
    radius2: { label: "Second’s radius", commands: SEARCHES, kinds: DISCS, hint: "km" },
    quad: { label: "P,Q,R", commands: ["scalar"], hint: "three whole numbers" },
    dir: { label: "Direction", values: ["any", "rise", "fall"], absent: "any", commands: WITH_DIRECTION },
    from: { label: "From", commands: WITH_LIMITS, hint: "TDB, or seconds since J2000" },
    to: { label: "To", commands: WITH_LIMITS },
    blocks: { label: "Blocks", commands: ["gen"], hint: "1 to 40" },
    seed: { label: "Seed", commands: ["gen"], hint: "a whole number below 2^64" },
    tick: { label: "Ticks in a second", values: ["1", "1000"], absent: "1", commands: SEARCHES, isRare: true },
    width: { label: "Width of windows", absent: "1", commands: WITH_LIMITS, isRare: true, hint: "1 to 1000000 ticks" },
    depth: { label: "Depth of cuts", absent: "40", commands: WITH_LIMITS, isRare: true, hint: "0 to 40" },
    cut: { label: "Cut", values: ["half", "third"], absent: "half", commands: WITH_LIMITS, isRare: true },
};

// What is written beside a value.
finder.says = {
    emb: "emb (Earth and Moon)", within: "within: between two numbers", outside: "outside of two numbers",
};

// Radii in km, the mean ones, by docs/guide/recipes.md.
finder.radii = {
    sun: "695700", mercury: "2439.4", venus: "6051.8", earth: "6371.0084", moon: "1737.4", mars: "3389.5", jupiter: "69911",
    saturn: "58232", uranus: "25362", neptune: "24622", pluto: "1188.3",
};

// Examples of docs/guide/recipes.md.
finder.examples = {
    "Jupiter meets Saturn": { kind: "conj", target: "jupiter", second: "saturn", observer: "earth", frame: "ecl" },
    "New moons": { kind: "conj", target: "moon", second: "sun", observer: "earth", frame: "ecl", dir: "fall" },
    "Full moons": { kind: "oppo", target: "moon", second: "sun", observer: "earth", frame: "ecl", dir: "rise" },
    "Perigees and apogees": { kind: "apsis", target: "moon", observer: "earth" },
    "Equinoxes of J2000": { kind: "coord", target: "sun", observer: "earth", frame: "ecl", axis: "y" },
    "Stations of Mercury": { kind: "station", target: "mercury", observer: "earth", frame: "ecl" },
    "Lunar eclipses in the umbra": { kind: "full", target: "earth", second: "sun", observer: "moon", radius1: "8179.8",
        radius2: "697437.4" },
    "Solar eclipses on Earth": { kind: "any", target: "moon", second: "sun", observer: "earth", radius1: "8115.5",
        radius2: "689321.9" },
    "Venus within 10 degrees of the Sun": { command: "set", kind: "sep", target: "venus", second: "sun", observer: "earth",
        relation: "atleast", ref: "0.984807753012208059" },
    "Mercury is retrograde": { command: "set", kind: "station", target: "mercury", observer: "earth", frame: "ecl",
        relation: "less" },
};

// Whether a command has an option by what else is asked.
finder.hasOption = (name, asked) => {
    const option = finder.options[name];
    return option.commands.includes(asked.command) &&
        (!option.kinds || !SEARCHES.includes(asked.command) || option.kinds.includes(asked.kind)) &&
        (!option.relations || option.relations.includes(asked.relation));
};

// An option and its value as words: one that begins with a sign stands in one word.
function optionWords(name, value) {
    return value.startsWith("-") ? [`--${name}=${value}`] : [`--${name}`, value];
}

// The words of a command for what is asked, over files of these names, with a certificate of a name.
finder.words = (asked, files, certificate) => {
    const words = [asked.command];
    if (asked.command === "gen") return [...words, "405", ...[asked.blocks, asked.seed].filter(Boolean)];
    for (const [name, option] of Object.entries(finder.options)) {
        const value = asked[name] ?? "";
        if (finder.hasOption(name, asked) && value !== "" && value !== option.absent) words.push(...optionWords(name, value));
    }
    if (asked.command === "verify" && certificate) words.push(...optionWords("cert", certificate));
    if (!finder.commands[asked.command].readsFiles) return words;
    return [...words, ...(files.some((name) => name.startsWith("-")) ? ["--"] : []), ...files];
};

// A command line as a shell reads it.
finder.shown = (words) => ["./finder", ...words]
    .map((word) => (/^[\w@%+=:,./-]+$/.test(word) ? word : `'${word.replaceAll("'", "'\\''")}'`)).join(" ");
