// A picture of a report's windows over its span.
"use strict";

const LETTER = 8.2, RIGHT = 16, TOP = 14, LANE = 34, BELOW = 34, DATE_WIDTH = 66, CLOCK_WIDTH = 86;
const MINUTE = 60, HOUR = 3600, YEAR = 365.2425 * 86400;
const STEPS = [1, 2, 5, 10, 30, MINUTE, 2 * MINUTE, 5 * MINUTE, 10 * MINUTE, 30 * MINUTE, HOUR, 2 * HOUR, 6 * HOUR, 12 * HOUR,
    DAY, 2 * DAY, 5 * DAY, 10 * DAY, 20 * DAY];
// Past so many windows a line stands for each.
const MAX_SIGNS = 240;
const LANES = { rise: "rise", fall: "fall", undecided: "undecided", sure: "sure", possible: "possible" };

// An element of a drawing.
function drawn(name, attributes, ...inside) {
    const element = document.createElementNS("http://www.w3.org/2000/svg", name);
    for (const [key, value] of Object.entries(attributes)) element.setAttribute(key, value);
    element.append(...inside);
    return element;
}

// The lane of a window.
const laneOf = (window) => (window.sort === "certain" ? window.turn : window.sort);

// The least round number that is no less than another: 1, 2 or 5 with zeros.
function roundUp(number) {
    const power = 10 ** Math.floor(Math.log10(Math.max(number, 1)));
    return [1, 2, 5, 10].map((each) => each * power).find((each) => each >= number);
}

// The date of a second since J2000.
const dateOf = (second) => new Date(Date.UTC(2000, 0, 1, 12) + second * 1000);

// A year, of four digits or with its sign.
const yearOf = (date) => {
    const year = date.getUTCFullYear();
    return year < 0 ? `−${String(-year).padStart(4, "0")}` : String(year).padStart(4, "0");
};

// Whole months or years between two seconds: where each begins, and its name.
function monthMarks(from, to, step) {
    const marks = [], months = step < YEAR ? Math.ceil(step / (YEAR / 12)) : 12 * roundUp(step / YEAR);
    const whole = [1, 2, 3, 4, 6].find((each) => each >= months) ?? Math.ceil(months / 12) * 12;
    const first = dateOf(from);
    let month = Math.ceil((first.getUTCFullYear() * 12 + first.getUTCMonth()) / whole) * whole;
    for (;;) {
        const date = new Date(0);
        date.setUTCFullYear(Math.floor(month / 12), ((month % 12) + 12) % 12, 1);
        const second = (date.getTime() - Date.UTC(2000, 0, 1, 12)) / 1000;
        if (second > to) return marks;
        const name = whole < 12 ? `${yearOf(date)}-${String(date.getUTCMonth() + 1).padStart(2, "0")}` : yearOf(date);
        if (second >= from) marks.push([second, name]);
        month += whole;
    }
}

// Days, hours, minutes or seconds between two seconds. Steps count from midnight.
function clockMarks(from, to, step) {
    const marks = [], noon = DAY / 2;
    for (let second = Math.ceil((from + noon) / step) * step - noon; second <= to; second += step) {
        const text = dateOf(second).toISOString();
        const [date, time] = text.replace(/^[+-]00/, "").split("T");
        marks.push([second, step >= DAY ? date : `${date.slice(-5)} ${time.slice(0, step >= MINUTE ? 5 : 8)}`]);
    }
    return marks;
}

// Whole numbers between two.
function numberMarks(from, to, step) {
    const marks = [], whole = roundUp(step);
    for (let number = Math.ceil(from / whole) * whole; number <= to; number += whole) marks.push([number, String(number)]);
    return marks;
}

// The marks of an axis from one number to another, with room for their names.
function marksOf(from, to, width, isTime) {
    const stepOf = (name) => (to - from) / Math.max(1, Math.floor(width / name));
    if (!isTime) return numberMarks(from, to, stepOf(DATE_WIDTH));
    const isLong = stepOf(CLOCK_WIDTH) > DAY, step = stepOf(isLong ? DATE_WIDTH : CLOCK_WIDTH);
    const clock = STEPS.find((each) => each >= Math.max(step, isLong ? DAY : 0));
    return clock ? clockMarks(from, to, clock) : monthMarks(from, to, step);
}

// A window's sign in its lane: a bar if it is wide, else a line, with an arrow by its direction.
function sign(window, place, y, hasArrow) {
    const from = place(finder.number(window.first)), to = place(finder.number(window.last));
    const lane = laneOf(window), group = drawn("g", { class: `sign ${lane}` });
    const words = [window.first, window.last === window.first ? "" : `to ${window.last}`, window.sort, window.turn];
    group.append(drawn("title", {}, words.filter(Boolean).join(" ")));
    group.append(drawn("rect", { x: from - 0.75, y: y + 7, width: to - from + 1.5, height: LANE - 14, rx: 0.75 }));
    if (hasArrow && window.turn && to - from < 12) {
        const up = window.turn === "rise", tip = up ? y + 3 : y + LANE - 3, foot = up ? y + 11 : y + LANE - 11;
        group.append(drawn("path", { d: `M${from - 5} ${foot}L${from + 5} ${foot}L${from} ${tip}Z` }));
    }
    return group;
}

// The axis: lines, and what stands below them.
function axis(marks, place, bottom) {
    return marks.map(([number, name]) => drawn("g", { class: "mark" },
        drawn("line", { x1: place(number), x2: place(number), y1: TOP, y2: bottom }),
        drawn("text", { x: place(number), y: bottom + 20, "text-anchor": "middle" }, name)));
}

// The drawing of a report, so wide.
finder.picture = (report, width) => {
    const used = Object.keys(LANES).filter((lane) => report.windows.some((window) => laneOf(window) === lane));
    const isTime = report.span[0].includes("T");
    const [from, to] = report.span.map(finder.number), right = width - RIGHT;
    const left = Math.ceil(LETTER * Math.max(...used.map((lane) => lane.length))) + 12;
    const place = (number) => left + ((number - from) / Math.max(to - from, 1e-9)) * (right - left);
    const bottom = TOP + used.length * LANE;
    const marks = marksOf(from, to, right - left, isTime)
        .filter(([number]) => place(number) > left + 18 && place(number) < right - 18);
    const words = `${finder.sentence(report)}, from ${report.span[0]} to ${report.span[1]}`;
    const svg = drawn("svg", { viewBox: `0 0 ${width} ${bottom + BELOW}`, width, height: bottom + BELOW, role: "img",
        "aria-label": words });
    used.forEach((lane, at) => svg.append(
        drawn("rect", { class: `lane${at % 2 ? "" : " odd"}`, x: left, y: TOP + at * LANE, width: right - left, height: LANE }),
        drawn("text", { class: "name", x: left - 8, y: TOP + at * LANE + LANE / 2 + 5, "text-anchor": "end" }, LANES[lane])));
    svg.append(...axis(marks, place, bottom));
    svg.append(drawn("rect", { class: "frame", x: left, y: TOP, width: right - left, height: used.length * LANE }));
    const hasArrows = report.windows.length <= MAX_SIGNS;
    svg.append(...report.windows.map((window) => sign(window, place, TOP + used.indexOf(laneOf(window)) * LANE, hasArrows)));
    return svg;
};
