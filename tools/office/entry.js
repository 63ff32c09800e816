"use strict";
// What is read from each card: {kind, marks, taken}. The kind is null, or one of KINDS; marks has the candidates at each rank. Where marks are entered
// as they are on paper (hasMarks), a rank may have several candidates, a candidate several ranks, and a rank may be left out.
const {key, candidates, cards, ranks, has_marks: hasMarks, part} = JSON.parse(document.getElementById("data").textContent);
const KINDS = {missing: "not found", elsewhere: "contest not on card", nobody: "nobody ranked"};
const by = (id) => document.getElementById(id);
let reader = null, asked = null, readings = [], at = 0;

const unread = () => ({kind: null, marks: Array.from({length: ranks}, () => []), taken: false});
const tell = (text) => { by("alarm").textContent = text; };
const name = (c) => candidates[c].name;

// ---- what is kept

const place = () => "cards " + key + " " + reader;

function keep() {
    try {
        localStorage.setItem(place(), JSON.stringify({readings, at}));
    } catch {
        tell("This browser keeps nothing. If it ends before the file is saved, what was entered is lost.");
    }
}

// Who read last in this window, so that a page that is loaded again goes on; nobody where the browser keeps nothing.
function lastReader(given) {
    try {
        if (given !== undefined) sessionStorage.setItem("reader of " + key, given);
        return sessionStorage.getItem("reader of " + key) || null;
    } catch {
        return null;
    }
}

function isReading(value) {
    const isMark = (c) => Number.isInteger(c) && c >= 0 && c < candidates.length;
    const isRank = (marks) => Array.isArray(marks) && (hasMarks || marks.length < 2) && marks.every(isMark);
    return value && (value.kind === null || value.kind in KINDS) && Array.isArray(value.marks) && value.marks.length === ranks
        && value.marks.every(isRank) && typeof value.taken === "boolean";
}

// What this browser has kept under the reader's name, or null.
function kept() {
    let found = null;
    try {
        found = JSON.parse(localStorage.getItem(place()));
    } catch {
        found = null;
    }
    const isWhole = found && Array.isArray(found.readings) && found.readings.length === cards.length && found.readings.every(isReading);
    return isWhole ? found : null;
}

function recall() {
    const found = kept();
    readings = found ? found.readings : cards.map(unread);
    at = found && Number.isInteger(found.at) && cards[found.at] ? found.at : 0;
}

// ---- what a reading says

const BY_RULES = "Mark the order that counts by the rules of the contest; Backspace takes the last mark away.";

// The candidates by rank, or why a seen file can't say it.
function ranked({marks}) {
    const found = marks.flat();
    const gap = marks.findIndex((each) => each.length === 0);
    if (marks.slice(gap < 0 ? ranks : gap).some((each) => each.length)) {
        return {fault: "Rank " + (gap + 1) + " is left out, and a seen file can’t say that. Mark the ranks that count by the rules of the contest, from 1 on."};
    }
    return {found};
}

function faultOf(reading) {
    if (reading.kind !== null) return null;
    const {found, fault} = hasMarks ? {found: reading.marks.flat()} : ranked(reading);
    return fault || (found.length ? null : "Nothing is marked. Rank candidates, or say that nobody is ranked, that the contest isn’t on the card, or that it wasn’t found.");
}

function inWords(reading) {
    if (reading.kind !== null) return KINDS[reading.kind];
    return reading.marks.flatMap((each, rank) => each.length ? [rank + 1 + " " + each.map(name).join(" and ")] : []).join(", ") || "nothing yet";
}

function lineOf(card, reading) {
    if (reading.kind === "missing") return card.id + ",missing";
    if (hasMarks) return [card.id, "marks", ...reading.marks.flatMap((each, rank) => each.flatMap((c) => [rank + 1, candidates[c].id]))].join(",");
    const found = reading.kind === null ? ranked(reading).found : [];
    return [card.id, "ballot", ...found.map((c) => candidates[c].id)].join(",");
}

// ---- what is done to the reading of this card

function change(how) {
    tell("");
    how(readings[at]);
    readings[at].taken = false;
    keep();
    show();
}

function mark(c, rank) {
    const {marks} = readings[at], had = marks.findIndex((each) => each.includes(c));
    if (marks[rank].includes(c)) return change((reading) => { reading.marks[rank] = marks[rank].filter((other) => other !== c); });
    if (!hasMarks && marks[rank].length) return tell("Rank " + (rank + 1) + " has " + name(marks[rank][0]) + " already, and a seen file can’t say two at one rank. " + BY_RULES);
    if (!hasMarks && had >= 0) return tell(name(c) + " has rank " + (had + 1) + " already, and a seen file can’t say two ranks of one candidate. " + BY_RULES);
    change((reading) => { reading.kind = null; reading.marks[rank] = [...marks[rank], c].sort((a, b) => a - b); });
}

// The candidate at the first rank behind the last that is marked, or, where marks aren't entered as they are, at the first that is free.
function markNext(c) {
    const {marks} = readings[at], had = marks.findIndex((each) => each.includes(c));
    const rank = hasMarks ? marks.findLastIndex((each) => each.length) + 1 : marks.findIndex((each) => each.length === 0);
    if (!hasMarks && had >= 0) return tell(name(c) + " has rank " + (had + 1) + " already. " + BY_RULES);
    if (rank < 0 || rank >= ranks) return tell("All ranks have a mark: there are " + ranks + ". Take a mark away first.");
    mark(c, rank);
}

function choose(kind) {
    const reading = readings[at];
    if (reading.marks.flat().length) return tell("Candidates are marked. Take these marks away first.");
    change(() => { reading.kind = reading.kind === kind ? null : kind; });
    by("take").focus();
}

function takeAway() {
    const {kind, marks} = readings[at];
    const last = marks.findLastIndex((each) => each.length);
    if (kind !== null) change((reading) => { reading.kind = null; });
    else if (last >= 0) change((reading) => { reading.marks[last] = marks[last].slice(0, -1); });
}

function take() {
    const fault = faultOf(readings[at]);
    if (fault) return tell(fault);
    readings[at].taken = true;
    const next = [...cards.keys()].map((step) => (at + step) % cards.length).find((card) => !readings[card].taken);
    go(next === undefined ? at : next);
    if (next === undefined) by("save").focus();
}

function go(card) {
    const before = at;
    tell("");
    at = Math.max(0, Math.min(cards.length - 1, card));
    keep();
    showItem(before);
    show();
    cell(0, 0).focus();
}

function save() {
    const left = cards.filter((card, i) => !readings[i].taken).map((card) => card.id);
    if (left.length) return tell((left.length === 1 ? "A card has" : left.length + " cards have") + " no reading that was taken: " + left.slice(0, 10).join(", ") + (left.length > 10 ? " .." : "") + ". Read them first.");
    const text = cards.map((card, i) => lineOf(card, readings[i]) + "\n").join("");
    const link = document.createElement("a");
    link.href = URL.createObjectURL(new Blob([text], {type: "text/csv"}));
    link.download = (hasMarks ? "marks_" : "seen_") + reader + (part && "_" + part) + ".csv";
    link.click();
    setTimeout(() => URL.revokeObjectURL(link.href), 60000);
    tell("");
    by("saved").textContent = link.download + " was given to the browser to save: " + cards.length + " cards.";
}

// ---- what is shown

const cell = (c, rank) => by("grid").tBodies[0].rows[c].cells[rank + 1].firstChild;

function button(text, told, press) {
    const made = document.createElement("button");
    made.type = "button";
    made.textContent = text;
    if (told) made.setAttribute("aria-label", told);
    made.addEventListener("click", press);
    return made;
}

function header(row, text, scope) {
    const made = document.createElement("th");
    made.scope = scope;
    made.textContent = text;
    row.append(made);
    return made;
}

function makeGrid() {
    const head = by("grid").tHead.insertRow();
    header(head, "Rank", "col");
    for (let rank = 0; rank < ranks; rank++) header(head, rank + 1, "col");
    candidates.forEach((candidate, c) => {
        const row = by("grid").tBodies[0].insertRow();
        const title = header(row, " " + candidate.name, "row");
        if (c < 9) {
            const digit = document.createElement("kbd");
            digit.textContent = c + 1;
            title.prepend(digit);
        }
        for (let rank = 0; rank < ranks; rank++) {
            const made = button(rank + 1, candidate.name + ", rank " + (rank + 1), () => { aim(c, rank); mark(c, rank); });
            made.dataset.c = c;
            made.dataset.rank = rank;
            made.tabIndex = c || rank ? -1 : 0;
            row.insertCell().append(made);
        }
    });
}

// The one cell of the grid that the tab key comes to.
function aim(c, rank) {
    by("grid").querySelectorAll("button[tabindex='0']").forEach((other) => { other.tabIndex = -1; });
    cell(c, rank).tabIndex = 0;
    cell(c, rank).focus();
}

function makeItems() {
    cards.forEach((card, i) => {
        const made = button("", null, () => go(i));
        const item = document.createElement("li");
        item.append(made);
        by("cards").append(item);
    });
}

function showItem(i) {
    const made = by("cards").children[i].firstChild;
    const reading = document.createElement("span");
    reading.className = "count";
    reading.textContent = readings[i].taken ? "✓ " + inWords(readings[i]) : "not read yet";
    made.replaceChildren(cards[i].id, reading);
    made.setAttribute("aria-current", i === at);
}

function show() {
    const card = cards[at], reading = readings[at];
    by("card").textContent = card.id;
    by("where").textContent = "Card " + card.number + " of batch " + card.batch + (card.place ? ", " + card.place : "")
        + (card.draws.length ? (card.draws.length === 1 ? "; draw " : "; draws ") + card.draws.join(", ") : "");
    by("grid").querySelectorAll("button").forEach((made) => made.setAttribute("aria-pressed", reading.marks[made.dataset.rank].includes(+made.dataset.c)));
    by("kinds").querySelectorAll("button").forEach((made) => made.setAttribute("aria-pressed", reading.kind === made.dataset.kind));
    by("told").textContent = inWords(reading);
    by("saved").textContent = "";
    const taken = readings.filter((each) => each.taken).length;
    by("progress").textContent = reader + ": " + taken + " of " + cards.length + " cards read";
    showItem(at);
}

function begin() {
    recall();
    for (const id of ["reading", "all", "leave"]) by(id).hidden = false;
    for (const id of ["begin", "again"]) by(id).hidden = true;
    cards.forEach((_, i) => showItem(i));
    show();
    cell(0, 0).focus();
}

function enter() {
    reader = reader ?? asked;
    lastReader(reader);
    begin();
}

// Readings are kept under this name: of the same reader, or of another one with the same initials.
function ask(found) {
    const taken = found.readings.filter((each) => each.taken).length;
    by("whose").textContent = "This browser has " + taken + " of " + cards.length + " cards read by " + reader + ". Did you read them?";
    by("same").textContent = "Yes, continue as " + reader;
    by("begin").hidden = true;
    by("again").hidden = false;
    asked = reader;
    reader = null;
    by("whose").focus();  // so that no key that is pressed by habit answers
}

// Back to the question who reads.
function nobody() {
    reader = null;
    lastReader("");
    for (const id of ["reading", "all", "again", "leave"]) by(id).hidden = true;
    by("begin").hidden = false;
    by("progress").textContent = "";
    by("reader").value = "";
    tell("");
    by("reader").focus();
}

// ---- keys

const ARROWS = {ArrowUp: [-1, 0], ArrowDown: [1, 0], ArrowLeft: [0, -1], ArrowRight: [0, 1]};
const LETTERS = {m: "missing", c: "elsewhere", n: "nobody"};

function move([down, right]) {
    const {c, rank} = document.activeElement.dataset;
    if (c === undefined) return aim(0, 0);
    const within = (value, most) => Math.max(0, Math.min(most - 1, value));
    aim(within(+c + down, candidates.length), within(+rank + right, ranks));
}

// Whether the key was one of the page's own.
function pressed(event) {
    const typed = event.key, focus = document.activeElement;
    if (typed === "Enter") {
        if (focus.tagName === "BUTTON" && focus.dataset.c === undefined) return false;
        if (!event.repeat) take();
    } else if (/^[1-9]$/.test(typed) && candidates[typed - 1]) markNext(typed - 1);
    else if (LETTERS[typed.toLowerCase()]) choose(LETTERS[typed.toLowerCase()]);
    else if (typed === "Backspace") takeAway();
    else if (typed === "PageUp") go(at - 1);
    else if (typed === "PageDown") go(at + 1);
    else if (ARROWS[typed]) move(ARROWS[typed]);
    else return false;
    return true;
}

addEventListener("keydown", (event) => {
    if (reader === null || event.ctrlKey || event.altKey || event.metaKey) return;
    if (pressed(event)) event.preventDefault();
});
// Where another window of this browser has changed what this reader entered, that is shown here.
addEventListener("storage", (event) => {
    if (reader !== null && event.key === place()) {
        begin();
        tell("Another window of this browser has changed these readings.");
    }
});
by("begin").addEventListener("submit", (event) => {
    event.preventDefault();
    const given = by("reader").value.trim();
    if (!/^[A-Za-z0-9]{1,12}$/.test(given)) return tell("A reader’s name has 1 to 12 letters or digits.");
    tell("");
    reader = given;
    const found = kept();
    if (found) return ask(found);
    enter();
});
by("same").addEventListener("click", enter);
by("other").addEventListener("click", nobody);
by("leave").addEventListener("click", nobody);
by("kinds").querySelectorAll("button").forEach((made) => made.addEventListener("click", () => choose(made.dataset.kind)));
by("take").addEventListener("click", take);
by("clear").addEventListener("click", takeAway);
by("back").addEventListener("click", () => go(at - 1));
by("on").addEventListener("click", () => go(at + 1));
by("save").addEventListener("click", save);

makeGrid();
makeItems();
reader = lastReader();
if (reader !== null) begin();
else by("reader").focus();
