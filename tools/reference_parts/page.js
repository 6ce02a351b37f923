"use strict";
const query = document.getElementById("query");
const whole = document.getElementById("whole");
const count = document.getElementById("count");
const articles = [...document.querySelectorAll("article")];
const sections = [...document.querySelectorAll("main section")];
const rows = new Map([...document.querySelectorAll("nav li a")].map((a) => [a.getAttribute("href"), a.closest("li")]));
const index = document.getElementById("index");
const texts = new Map();

// What a search looks at: the name, the whole path if the query has `::`, or all that the box shows.
function searched(article, words) {
  if (whole.checked) {
    if (!texts.has(article)) texts.set(article, (article.id + " " + article.textContent).toLowerCase());
    return texts.get(article);
  }
  const path = words.some((word) => word.includes("::")) ? article.id + " " : "";
  return (path + article.dataset.name).toLowerCase();
}

function isShownLeaf(row) {
  return !row.hidden && !row.querySelector("ul");
}

// Shows the boxes in which all words of the query occur, and the sections and lines of the index that have one.
function search() {
  const words = query.value.toLowerCase().split(/\s+/).filter(Boolean);
  let found = 0;
  for (const article of articles) {
    const text = words.length ? searched(article, words) : "";
    article.hidden = !words.every((word) => text.includes(word));
    found += !article.hidden;
    const row = rows.get("#" + article.id);
    if (row) row.hidden = article.hidden;
  }
  for (const section of sections) {
    section.hidden = words.length > 0 && !section.querySelector("article:not([hidden])");
    const row = rows.get("#" + section.id);
    if (row) row.hidden = section.hidden;
  }
  for (const details of index.querySelectorAll("details")) {
    details.hidden = words.length > 0 && ![...details.querySelectorAll("li")].some(isShownLeaf);
    details.open = words.length > 0 && found < 100;
  }
  for (const about of document.querySelectorAll(".about")) about.hidden = words.length > 0;
  count.textContent = words.length ? found + (found === 1 ? " entry" : " entries") : "";
}

// The text without `%20` and the like; as it is if a `%` begins nothing of that kind.
function decoded(text) {
  try {
    return decodeURIComponent(text);
  } catch {
    return text;
  }
}

// Follows the address: `#q=WORDS` searches (`#q=WORDS&all` in comments and contracts too), another one shows its box.
function follow() {
  const hash = decoded(location.hash);
  const asked = /^#q=(.*?)(&all)?$/.exec(hash);
  if (asked) {
    query.value = asked[1].replace(/\+/g, " ");
    whole.checked = Boolean(asked[2]);
    search();
    return;
  }
  const target = document.getElementById(hash.slice(1));
  if (target && query.value) {
    query.value = "";
    search();
  }
  if (target) target.scrollIntoView();
}

function searchAndKeep() {
  search();
  const words = encodeURIComponent(query.value.trim());
  history.replaceState(null, "", words ? "#q=" + words + (whole.checked ? "&all" : "") : "#top");
}

query.addEventListener("input", searchAndKeep);
whole.addEventListener("change", searchAndKeep);
document.getElementById("search").addEventListener("submit", (event) => event.preventDefault());
document.addEventListener("keydown", (event) => {
  if (event.key === "/" && document.activeElement !== query) {
    event.preventDefault();
    query.focus();
    query.select();
  }
});
window.addEventListener("hashchange", follow);
index.open = matchMedia("(min-width: 60rem)").matches;
follow();
