"use strict";
// Rows of the tree and parts of the octets carry their node's number: marking one marks both.
const parts = (node) => document.querySelectorAll(`[data-node="${node}"]`);
const place = document.getElementById("place");
let marked = [];
function mark(node, scroll) {
  for (const part of marked) part.classList.remove("marked");
  marked = [...parts(node)];
  for (const part of marked) {
    part.classList.add("marked");
    if (scroll) part.scrollIntoView({ block: "nearest" });
  }
  place.textContent = marked.length ? `node ${node}, ${marked[0].title}` : "";
}
function pointed(event, scroll) {
  const part = event.target.closest("[data-node]");
  if (part) mark(part.dataset.node, scroll);
}
document.addEventListener("mouseover", (event) => pointed(event, false));
document.addEventListener("focusin", (event) => pointed(event, true));
document.addEventListener("click", (event) => pointed(event, true));
window.addEventListener("hashchange", () => mark(location.hash.slice(1), true));
if (/^#\d+$/.test(location.hash)) mark(location.hash.slice(1), true);
