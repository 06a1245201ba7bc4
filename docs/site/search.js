// SPDX-License-Identifier: MIT
// The search of the site. What it looks at is a script too, which is read when the search is first used: from a file a
// page may fetch nothing. Each entry is words, what they are, where they are explained, and the text there.
"use strict";
const root = document.currentScript.dataset.root;
const most = 40;
let entries = null;

function searchIn(found) { // the index calls it
    entries = found.map(([title, kind, url, text]) => ({title, kind, url, text, low: title.toLowerCase(),
                                                        all: `${title} ${text}`.toLowerCase()}));
    show();
}

function field() { return document.getElementById("search"); }
function list() { return document.getElementById("found"); }

// How good an entry is for words, all of which it has; 0 if it lacks one.
function worth(entry, words, whole) {
    if (!words.every(word => entry.all.includes(word))) return 0;
    let sum = 1;
    if (entry.low === whole) sum += 1000;
    else if (entry.low.startsWith(whole)) sum += 400;
    else if (entry.low.includes(whole)) sum += 200;
    for (const word of words) if (entry.low.includes(word)) sum += 50;
    if (/^(call|page|manual)$/.test(entry.kind)) sum += 20;
    return sum - Math.min(entry.title.length, 100) / 10;
}

// The text of an entry around the first word.
function part(entry, words) {
    const at = Math.max(0, entry.text.toLowerCase().indexOf(words[0]) - 40);
    return (at ? ".. " : "") + entry.text.slice(at, at + 160);
}

function row(entry, words) {
    const item = document.createElement("li"), link = document.createElement("a");
    link.href = root + entry.url;
    for (const [name, text] of [["kind", entry.kind], ["", part(entry, words)]]) {
        const small = document.createElement("small");
        small.className = name;
        small.textContent = text;
        link.append(small);
        if (name) link.append(entry.title);
    }
    item.append(link);
    return item;
}

function show() {
    const whole = field().value.trim().toLowerCase(), words = whole.split(/\s+/).filter(Boolean);
    list().hidden = !words.length;
    if (!words.length || !entries) return;
    const found = entries.map(entry => [worth(entry, words, whole), entry]).filter(([sum]) => sum > 0);
    found.sort((a, b) => b[0] - a[0]);
    list().replaceChildren(...found.slice(0, most).map(([, entry]) => row(entry, words)));
    if (!found.length) {
        const item = document.createElement("li"), none = document.createElement("p");
        none.textContent = "Nothing has all of these words.";
        item.append(none);
        list().append(item);
    }
    choose(0);
}

function choose(place) {
    const links = [...list().querySelectorAll("a")];
    links.forEach((link, at) => link.classList.toggle("chosen", at === place));
    links[place]?.scrollIntoView({block: "nearest"});
}

function key(event) {
    const links = [...list().querySelectorAll("a")], place = links.findIndex(link => link.className === "chosen");
    if (event.key === "ArrowDown" && place + 1 < links.length) choose(place + 1);
    else if (event.key === "ArrowUp" && place > 0) choose(place - 1);
    else if (event.key === "Enter" && links[place]) links[place].click();
    else if (event.key === "Escape") list().hidden = true;
    else return;
    event.preventDefault();
}

function begin() {
    if (entries || document.getElementById("index")) return;
    const script = document.createElement("script");
    script.id = "index";
    script.src = `${root}search-index.js`;
    document.head.append(script);
}

field().addEventListener("focus", begin);
field().addEventListener("input", () => (begin(), show()));
field().addEventListener("keydown", key);
document.addEventListener("keydown", event => {
    if (event.key !== "/" || event.target.closest("input, textarea")) return;
    event.preventDefault();
    field().focus();
});
document.addEventListener("click", event => {
    if (!event.target.closest(".search")) list().hidden = true;
});
