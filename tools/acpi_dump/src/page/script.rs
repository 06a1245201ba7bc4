//! The script of a page. Without it the links, the folds and the bytes are there too.

/// The SHA-256 of the script, in base64, which scripts/check/html compares with it.
pub(super) const SCRIPT_HASH: &str = "FTn/ON6D92EYYuIPix4tOxQJG3lE6V1Tp7toyMXDIGk=";

/// The script: what is under the pointer or has the focus is marked with its bytes, and the other way round.
pub(super) const SCRIPT: &str = r#"
"use strict";
document.querySelector(".tools").hidden = false;
let marked = [];
function clear() { for (const e of marked) e.classList.remove("on"); marked = []; }
function add(e) { if (e) { e.classList.add("on"); marked.push(e); } }
function offset(e) {
  const m = /(?:^| )f([0-9a-f]+)/.exec(e.getAttribute("class") || "");
  return m ? parseInt(m[1], 16) : -1;
}
function told(row) { return [1, 2, 3].map(n => row.cells[n].textContent).join("  "); }
function say(t, s) { t.querySelector("output").textContent = s; }
function show(pane, e) {
  if (!e) return;
  const p = pane.getBoundingClientRect(), r = e.getBoundingClientRect(), low = Math.min(p.bottom, innerHeight);
  if (r.top < p.top + 8) pane.scrollTop -= p.top + 28 - r.top;
  else if (r.bottom > low - 8) pane.scrollTop += r.bottom - low + 28;
  if (r.right > p.right - 8) pane.scrollLeft += r.right - p.right + 28;
  else if (r.left < p.left + 8) pane.scrollLeft = 0;
}
function bytes(t, from, to) {
  const pane = t.querySelector(".bs pre");
  let first = null;
  for (const i of pane.querySelectorAll("i")) {
    const o = offset(i);
    if (o >= from && o < to) { add(i); first = first || i; }
  }
  return () => show(pane, first);
}
function pointField(e, scroll) {
  const t = e.closest(".t"), s = e.closest("summary[data-o]"), row = e.closest("tr[class]");
  if (!t || e.closest(".bs")) return false;
  let from, to, name;
  if (s) {
    from = parseInt(s.dataset.o, 16); to = from + parseInt(s.dataset.n, 16);
    name = s.textContent.replace(/^[0-9a-f]+ /, "");
  } else if (row && offset(row) >= 0) {
    from = offset(row); to = from + 1; name = told(row);
  } else return false;
  clear(); add(s || row);
  const go = bytes(t, from, to);
  if (scroll) go();
  say(t, "0x" + from.toString(16) + "  " + name);
  return true;
}
function rowOf(t, o) { return t.querySelector("tr.f" + o.toString(16)); }
function pointByte(i) {
  const t = i.closest(".t"), o = offset(i), row = rowOf(t, o);
  clear(); bytes(t, o, o + 1);
  if (!row) return;
  let shown = row, d = row.closest("details");
  const names = [told(row)];
  for (; d && d.parentNode.closest("details"); d = d.parentNode.closest("details")) {
    const s = d.querySelector("summary");
    if (!d.open) shown = s;
    if (d.classList.contains("s")) names.unshift(s.firstChild.nextSibling.textContent.trim());
  }
  add(shown);
  say(t, "0x" + o.toString(16) + "  " + names.join(" / "));
}
let still = false;  // after a key or a jump the page moves under the pointer: that is no pointing
function point(e) {
  if (still) return;
  const i = e.target.closest(".bs i");
  if (i && !i.closest(".old")) pointByte(i);
  else if (!pointField(e.target, true)) clear();
}
document.addEventListener("pointerover", point);
document.addEventListener("pointermove", e => { if (still) { still = false; point(e); } });
document.addEventListener("keydown", () => { still = true; });
document.addEventListener("focusin", e => pointField(e.target, true));
function reveal(e) {
  for (let d = e.closest("details"); d; d = d.parentNode.closest("details")) d.open = true;
}
function go() {
  const id = decodeURIComponent(location.hash.slice(1)), m = /^(.+)-0x([0-9a-f]+)$/.exec(id);
  let e = id && document.getElementById(id);
  if (!e && m && (e = document.getElementById(m[1]))) {
    const at = parseInt(m[2], 16);
    for (const r of e.querySelectorAll("tr[id]")) if (offset(r) <= at) e = r;
  }
  if (!e) return;
  still = true;
  reveal(e);
  const inner = e.matches(".t") && e.querySelector("details");
  if (inner) inner.open = true;
  e.scrollIntoView({block: e.matches("tr") ? "center" : "start"});
  if (e.matches("tr")) pointField(e, true);
}
document.addEventListener("click", e => {
  const b = e.target.closest("button[data-all]"), i = e.target.closest(".bs i"), a = e.target.closest("a[href^='#']");
  if (b) for (const d of document.querySelectorAll(".t details")) {
    d.open = b.dataset.all === "1" || (d.parentNode.matches(".t") && d.open);
  }
  if (i && !i.closest(".old")) {
    const row = rowOf(i.closest(".t"), offset(i));
    if (row) {
      reveal(row);
      row.querySelector("a").focus({preventScroll: true});
      row.scrollIntoView({block: "nearest"});
    }
  }
  if (a && a.getAttribute("href") === location.hash) go();
});
document.addEventListener("keydown", e => {
  const step = {ArrowDown: 1, ArrowUp: -1}[e.key], t = e.target.closest && e.target.closest(".fs");
  if (!step || !t || e.altKey || e.ctrlKey || e.metaKey) return;
  const all = [...t.querySelectorAll("summary,tr[id]>td:first-child a")]
    .filter(x => x.checkVisibility ? x.checkVisibility() : x.offsetParent);
  const n = all[all.indexOf(e.target) + step];
  if (n) { e.preventDefault(); n.focus(); }
});
addEventListener("hashchange", go);
addEventListener("load", go);
"#;
