"use strict";

// What all drawings share: making elements, telling what a mark stands for, and going from mark to mark by keys.
// Texts are put into the page as text alone, never as markup.

function make(tag, classes, text) {
  const element = document.createElement(tag);
  if (classes) {
    element.className = classes;
  }
  if (text !== undefined) {
    element.textContent = text;
  }
  return element;
}

function makeWith(tag, classes, children) {
  const element = make(tag, classes);
  element.append(...children);
  return element;
}

// A text in which code stands between two backticks.
function makeProse(tag, classes, text) {
  return makeWith(tag, classes, proseOf(text));
}

const proseOf = (text) => text.split("`").map((part, place) => (place % 2 === 1 ? make("code", "", part) : part));

function makeVector(tag, attributes) {
  const element = document.createElementNS("http://www.w3.org/2000/svg", tag);
  Object.entries(attributes).forEach(([name, value]) => element.setAttribute(name, value));
  return element;
}

const counted = (number, word, words) => `${grouped(number)} ${number === 1 ? word : words || `${word}s`}`;
const grouped = (number) => String(number).replace(/\B(?=(\d{3})+$)/g, ",");

// For an element, what is said of it and of the marks in it: a function of the mark that returns
// { note, lines: [{ kind, line }], related: [elements] }.
const tellers = new WeakMap();

function tellOf(element, teller) {
  tellers.set(element, teller);
  return element;
}

function tellerAbove(element) {
  let place = element;
  while (place && !tellers.has(place)) {
    place = place.parentElement;
  }
  return place;
}

let shownTexts = new Map();
let marked = [];

// Says what the mark is: its note, and each line of a text that it stands for.
function tell(target) {
  const place = tellerAbove(target);
  if (!place) {
    return;
  }
  const { note, lines, related } = tellers.get(place)(target);
  document.getElementById("note").replaceChildren(...proseOf(note));
  const list = document.getElementById("lines");
  list.replaceChildren(...lines.filter(({ line }) => line).map(({ kind, line }) => makeWith("li", "", [
    make("span", "where", `${TEXT_KINDS.get(kind).title}, line ${line}`),
    make("code", "", shortened(shownTexts.get(kind).lines[line - 1])),
  ])));
  marked.forEach(({ element, name }) => element.classList.remove(name));
  marked = [{ element: place, name: "told" }, ...(related || [])].filter(({ element }) => element);
  marked.forEach(({ element, name }) => element.classList.add(name));
}

// A line above something that can be scrolled sideways: how many of its columns can't be seen, and how they can.
function tellHidden(scrolled, columnSelector, word) {
  const hint = make("p", "hidden-columns");
  const recount = () => {
    const box = scrolled.getBoundingClientRect();
    const columns = [...scrolled.querySelectorAll(columnSelector)].map((column) => column.getBoundingClientRect());
    const before = columns.filter(({ left }) => left < box.left - 2).length;
    const behind = columns.filter(({ right }) => right > box.right + 2).length;
    const sides = [[before, "to the left"], [behind, "to the right"]].filter(([count]) => count > 0);
    const told = sides.map(([count, side]) => `${counted(count, word)} ${side}`).join(" and ");
    hint.textContent = told && `Not all of it is in sight: ${told}. Scroll sideways, or use the arrow keys.`;
    hint.dataset.hidden = before + behind;
  };
  scrolled.addEventListener("scroll", recount);
  new ResizeObserver(recount).observe(scrolled);
  recountHidden.add(recount);
  return hint;
}

// What counts hidden columns anew; called once a drawing stands in the page.
const recountHidden = new Set();

const shortened = (line) => (line.length > 400 ? `${line.slice(0, 400)} …` : line);

// Makes the marks of a drawing one stop of the tab key, from which the arrow keys go on. Marks stand in groups. In a
// column they follow one another downwards and the groups to the side; in every other group it is the other way round.
function letKeysMove(root, groupSelector, columnSelector) {
  const marksOf = (group) => [...group.querySelectorAll(".mark")];
  let current = root.querySelector(".mark");
  if (!current) {
    return;
  }
  current.tabIndex = 0;
  const moveTo = (mark) => {
    current.tabIndex = -1;
    current = mark;
    mark.tabIndex = 0;
    mark.focus();
    mark.scrollIntoView({ block: "nearest", inline: "nearest" });
  };
  const nextGroup = (group, step, fits) => {
    const groups = [...root.querySelectorAll(groupSelector)];
    let place = groups.indexOf(group) + step;
    while (groups[place] && !(groups[place].querySelector(".mark") && fits(groups[place]))) {
      place += step;
    }
    return groups[place];
  };
  const steps = { ArrowLeft: [-1, false], ArrowRight: [1, false], ArrowUp: [-1, true], ArrowDown: [1, true] };
  root.addEventListener("keydown", (pressed) => {
    const mark = pressed.target.closest(".mark");
    if (!mark || !steps[pressed.key]) {
      return;
    }
    pressed.preventDefault();
    const [step, isUpright] = steps[pressed.key];
    const group = mark.closest(groupSelector);
    const isColumn = columnSelector !== null && group.matches(columnSelector);
    const marks = marksOf(group);
    const place = marks.indexOf(mark);
    if (isUpright === isColumn && marks[place + step]) {
      moveTo(marks[place + step]);
    } else if (isUpright !== isColumn || isColumn) {
      const isElsewhere = (other) => !isUpright || !isColumn || other.parentElement !== group.parentElement;
      const other = nextGroup(group, step, isElsewhere);
      if (other) {
        const others = marksOf(other);
        moveTo(others[Math.min(place, others.length - 1)]);
      }
    }
  });
  root.addEventListener("pointerdown", (pressed) => {
    const mark = pressed.target.closest(".mark");
    if (mark) {
      moveTo(mark);
    }
  });
}
