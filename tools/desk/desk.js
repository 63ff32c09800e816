"use strict";
// What scripts add to the desk: how far an upload is, and keys on the page of a card. Without them everything else works.

// ---- uploads

function send(form) {
    const bar = document.createElement("progress"), told = document.createElement("p"), request = new XMLHttpRequest();
    told.setAttribute("role", "status");
    bar.max = 1;
    bar.value = 0;
    form.append(bar, told);
    form.querySelectorAll("button").forEach((button) => { button.disabled = true; });
    request.upload.addEventListener("progress", ({loaded, total}) => {
        bar.value = loaded / total;
        told.textContent = Math.round(100 * loaded / total) + " percent sent";
    });
    request.addEventListener("load", () => {
        // A page that refuses is shown as it is; any other answer led to the page of a step.
        if (request.status < 400) return location.assign(request.responseURL);
        const page = new DOMParser().parseFromString(request.responseText, "text/html");
        document.body.replaceWith(page.body);
        begin();
    });
    request.addEventListener("error", () => {
        told.textContent = "The desk doesn’t answer, or the disk is full. Nothing was changed.";
        form.querySelectorAll("button").forEach((button) => { button.disabled = false; });
    });
    request.open("POST", form.action);
    request.send(new FormData(form));
}

const hasFile = (form) => [...form.querySelectorAll("input[type='file']")].some((input) => input.files.length);

// ---- the page of a card

const radio = (name, value) => document.querySelector("input[name='" + name + "'][value='" + value + "']");
const isMarked = (contest, rank) => Boolean(document.querySelector("input[name='rank_" + contest + "_" + rank + "']:checked")?.value);

// The contest that keys are for: where the keyboard is, or the first one.
const contestOfKeys = () => (document.activeElement.closest("[data-contest]") || document.querySelector("[data-contest]")).dataset.contest;

function ranksOf(contest) {
    return document.querySelectorAll("[data-contest='" + contest + "'] thead th").length - 1;
}

function markNext(candidate) {
    const contest = contestOfKeys();
    for (let rank = 1; rank <= ranksOf(contest); rank++) {
        const next = radio("rank_" + contest + "_" + rank, candidate);
        if (!next || next.checked) return;
        if (!isMarked(contest, rank)) {
            next.checked = true;
            radio("way_" + contest, "ranked").checked = true;
            return;
        }
    }
}

function takeAway() {
    const contest = contestOfKeys();
    for (let rank = ranksOf(contest); rank > 0; rank--) {
        if (isMarked(contest, rank)) {
            radio("rank_" + contest + "_" + rank, "").checked = true;
            return;
        }
    }
}

function choose(way) {
    radio("way_" + contestOfKeys(), way).checked = true;
}

// Whether the key was one of the page's own.
function pressed(event, form) {
    const key = event.key.toLowerCase();
    if (/^[1-9]$/.test(key)) markNext(key);
    else if (key === "backspace") takeAway();
    else if (key === "n") choose("nobody");
    else if (key === "c") choose("elsewhere");
    else if (key === "m") form.querySelector(".missing").click();
    else if (key === "enter" && !/^(A|BUTTON|SUMMARY)$/.test(document.activeElement.tagName)) form.querySelector(".take").click();
    else return false;
    return true;
}

// ---- what a page begins with

// A page that answers a form has the form's address. Whoever comes back to it, or loads it again, gets the page of the step as it is then.
const isOfForm = /\/(do|preview|back|try|begin|take|sheet)$/.test(location.pathname);
if (isOfForm) history.replaceState(null, "", location.pathname);

function begin() {
    document.querySelectorAll("form.do").forEach((form) => form.addEventListener("submit", (event) => {
        if (!hasFile(form)) return;
        event.preventDefault();
        send(form);
    }));
}

addEventListener("keydown", (event) => {
    const form = document.querySelector("form.entry");
    if (!form || event.ctrlKey || event.altKey || event.metaKey || event.repeat) return;
    if (pressed(event, form)) event.preventDefault();
});
begin();
