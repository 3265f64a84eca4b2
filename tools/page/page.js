"use strict";

/** A level that is being played, by the rules of Sokoban. A square that lies in no row is a wall. */
class Game {
  constructor(text) {
    this.rows = text.split("\n");
    this.width = Math.max(...this.rows.map((row) => row.length)) + 2;
    this.steps = { l: -1, u: -this.width, r: 1, d: this.width };
    this.free = new Set();
    this.goals = new Set();
    this.boxes = new Set();
    this.done = [];
    this.pushes = 0;
    this.rows.forEach((row, y) => [...row].forEach((thing, x) => this.put(thing, this.place(x, y))));
  }

  /** The number of a square. There is room for a frame around the rows, so that a step leads to no other row's end. */
  place(x, y) {
    return (y + 1) * this.width + x + 1;
  }

  put(thing, at) {
    if (thing !== "#") this.free.add(at);
    if (".*+".includes(thing)) this.goals.add(at);
    if ("$*".includes(thing)) this.boxes.add(at);
    if ("@+".includes(thing)) this.player = at;
  }

  /** Plays a letter in either case. Where it is not legal nothing changes, and the answer is false. */
  play(letter) {
    const step = this.steps[letter.toLowerCase()];
    if (step === undefined) return false;
    const to = this.player + step;
    const pushed = this.boxes.has(to);
    if (!this.free.has(to)) return false;
    if (pushed && (!this.free.has(to + step) || this.boxes.has(to + step))) return false;
    if (pushed) this.boxes.delete(to) && this.boxes.add(to + step);
    this.player = to;
    this.pushes += pushed;
    this.done.push(pushed ? letter.toUpperCase() : letter.toLowerCase());
    return true;
  }

  /** Takes the last letter back. */
  undo() {
    const letter = this.done.pop();
    if (letter === undefined) return;
    const step = this.steps[letter.toLowerCase()];
    const pushed = letter === letter.toUpperCase();
    if (pushed) this.boxes.delete(this.player + step) && this.boxes.add(this.player);
    this.player -= step;
    this.pushes -= pushed;
  }

  stored() {
    return [...this.boxes].filter((at) => this.goals.has(at)).length;
  }

  solved() {
    return this.stored() === this.boxes.size;
  }

  /** What stands on a square that is no wall, by the letter of a level's text. */
  thing(at) {
    const goal = this.goals.has(at);
    if (this.boxes.has(at)) return goal ? "*" : "$";
    if (this.player === at) return goal ? "+" : "@";
    return goal ? "." : " ";
  }

  text() {
    return this.rows.map((row, y) => [...row].map((thing, x) => (thing === "#" ? thing : this.thing(this.place(x, y)))).join("")).join("\n");
  }
}

const element = (id) => document.getElementById(id);
const counted = (number, thing, things = `${thing}s`) => `${number} ${number === 1 ? thing : things}`;
const tally = (game) => `${counted(game.pushes, "push", "pushes")}, ${counted(game.done.length, "move")}`;

/** Plays letters from the start. `fault` says why they are no solution with so many pushes and moves, or is empty. */
function judged(text, letters, pushes, moves) {
  const game = new Game(text);
  const bad = [...letters].findIndex((letter) => !game.play(letter));
  let fault = "";
  if (bad >= 0) fault = `Broken at letter ${bad + 1} of ${letters.length}: it is not legal there. This is no solution.`;
  else if (!game.solved()) fault = "Broken: after the last letter not all boxes stand on goals. This is no solution.";
  else if (game.pushes !== pushes || game.done.length !== moves) fault = `Broken: these letters have ${tally(game)}, and the page says otherwise.`;
  return { game, fault };
}

function draw(game) {
  const places = [...new Set([...game.goals, ...game.boxes, game.player])];
  for (const path of document.querySelectorAll("#picture [data-on]")) {
    const here = places.filter((at) => path.dataset.on.includes(game.thing(at)));
    const corners = here.map((at) => [at % game.width - 1, Math.floor(at / game.width) - 1]);
    path.setAttribute("d", corners.map(([x, y]) => `M${x * 10} ${y * 10}${path.dataset.shape}`).join(""));
  }
  element("pushes").textContent = game.pushes;
  element("moves").textContent = game.done.length;
}

/** Tells how a game stands. A screen reader reads this out, with the counts, so a film that runs says nothing before it stops. */
function say(game, first, fault) {
  const counts = document.createElement("span");
  counts.className = "unseen";
  counts.textContent = `${tally(game)}. `;
  const stored = `${game.stored()} of ${counted(game.boxes.size, "box", "boxes")} on goals.`;
  const words = game.solved() ? [first, `Solved: ${tally(game)}.`] : [first, counts, stored];
  element("state").replaceChildren(...(fault ? [fault] : words));
  element("state").classList.toggle("broken", fault !== "");
  element("position").textContent = game.text();
}

/** The best solution as a film, which ends before a letter that is not legal. */
class Film {
  help = "Keys: left and right go by a move, space watches and pauses, Home and End go to the ends.";

  constructor(text, letters, { game, fault }) {
    this.game = new Game(text);
    this.letters = letters;
    this.length = game.done.length;
    this.fault = fault;
    this.keys = {
      Home: () => this.to(0), ArrowLeft: () => this.to(this.game.done.length - 1), Space: () => this.run(),
      ArrowRight: () => this.to(this.game.done.length + 1), End: () => this.to(this.length),
    };
    this.timer = null;
    element("at").max = this.length;
    element("at").oninput = () => this.to(Number(element("at").value));
  }

  seek(place) {
    while (this.game.done.length > Math.max(place, 0)) this.game.undo();
    while (this.game.done.length < Math.min(place, this.length)) this.game.play(this.letters[this.game.done.length]);
    draw(this.game);
    element("at").value = this.game.done.length;
    element("at").setAttribute("aria-valuetext", `${this.game.done.length} of ${this.length}`);
  }

  /** Stops at a place, and says how it stands there. */
  to(place) {
    this.stop();
    this.seek(place);
    say(this.game, "", this.fault);
  }

  stop() {
    clearTimeout(this.timer);
    this.timer = null;
    element("run").textContent = "Watch";
  }

  /** Runs the film, from its start where it stands at its end, or stops it. */
  run() {
    if (this.timer !== null) return this.show();
    if (this.game.done.length === this.length) this.seek(0);
    element("run").textContent = "Pause";
    this.wait();
  }

  wait() {
    this.timer = setTimeout(() => {
      this.seek(this.game.done.length + 1);
      if (this.game.done.length === this.length) this.show();
      else this.wait();
    }, 1000 / Number(element("speed").value));
  }

  show() {
    this.to(this.game.done.length);
  }
}

/** The level as a visitor plays it. `best` is how many pushes the best solution has that is known to solve it. */
class Own {
  help = "Keys: the arrows play, Backspace undoes, Home restarts.";

  constructor(text, id, best) {
    this.game = new Game(text);
    this.id = id;
    this.best = best;
    this.keys = {
      ArrowLeft: () => this.play("l"), ArrowUp: () => this.play("u"), ArrowRight: () => this.play("r"), ArrowDown: () => this.play("d"),
      Backspace: () => this.take(1), Home: () => this.take(this.game.done.length),
    };
  }

  play(letter) {
    const legal = this.game.play(letter);
    this.show(legal ? "" : "Blocked. ");
    if (legal && this.game.solved() && this.game.pushes < this.best) this.tell();
  }

  take(count) {
    for (let back = 0; back < count; back += 1) this.game.undo();
    this.show();
  }

  show(first = "") {
    draw(this.game);
    say(this.game, first, "");
  }

  /** Shows the letters of a solution with fewer pushes than any before. */
  tell() {
    const before = this.best === Infinity ? "no solution was known here" : `the best so far has ${this.best}`;
    const yours = `You solved it with ${counted(this.game.pushes, "push", "pushes")}, and ${before}.`;
    element("found-text").textContent = `${yours} Send these letters to the keeper of the book, for level ${this.id}:`;
    element("found-letters").textContent = this.game.done.join("");
    element("found").hidden = false;
    this.best = this.game.pushes;
  }
}

/** Selects a text and copies it. Where the browser does not copy, it stays selected. */
function copy(button) {
  getSelection().selectAllChildren(element(button.dataset.of));
  const words = button.textContent;
  button.textContent = document.execCommand("copy") ? "Copied" : "Selected";
  setTimeout(() => { button.textContent = words; }, 2000);
}

function showLevel() {
  const text = element("board").textContent;
  const { id, pushes, moves } = element("level").dataset;
  const letters = element("letters")?.textContent;
  const best = letters === undefined ? null : judged(text, letters, Number(pushes), Number(moves));
  const film = best && new Film(text, letters, best);
  const own = new Own(text, id, best && !best.fault ? best.game.pushes : Infinity);
  let shown = null;

  function turn(mode) {
    film?.stop();
    shown = mode;
    element("watch").hidden = shown !== film || !film;
    element("play").hidden = shown !== own;
    element("mode").setAttribute("aria-pressed", shown === own);
    element("keys").textContent = shown?.help ?? "";
    (shown ?? own).show();
  }

  element("mode").onclick = () => turn(shown === own ? film : own);
  for (const button of document.querySelectorAll("[aria-keyshortcuts]")) {
    button.onclick = () => shown.keys[button.getAttribute("aria-keyshortcuts")]();
  }
  for (const button of document.querySelectorAll(".copy")) button.onclick = () => copy(button);
  document.onkeydown = (event) => {
    const key = event.key === " " ? "Space" : event.key;
    const typed = event.ctrlKey || event.altKey || event.metaKey || event.shiftKey || event.target.closest("input, select, pre");
    const pressed = key === "Space" && event.target.closest("button, summary, a");
    if (typed || pressed || !shown || !Object.hasOwn(shown.keys, key)) return;
    event.preventDefault();
    shown.keys[key]();
  };
  for (const part of document.querySelectorAll(".scripted")) part.hidden = false;
  if (matchMedia("(prefers-reduced-motion: reduce)").matches) element("speed").value = "2";
  if (best) {
    element("replayed").textContent = best.fault || "This page replayed it: it solves the level.";
    element("replayed").classList.toggle("broken", best.fault !== "");
  }
  turn(film);
}

/** Sorts and filters the levels by what their elements tell. */
function showOverview() {
  const form = element("filter");
  const list = element("levels");
  const levels = [...list.children].map((item) => {
    const numbers = Object.entries(item.dataset).map(([name, value]) => [name, Number(value)]);
    return { item, title: item.querySelector("bdi")?.textContent.toLowerCase() ?? "", ...Object.fromEntries(numbers) };
  });

  function isWanted(level) {
    if (!level.title.includes(form.elements.title.value.toLowerCase())) return false;
    const verdict = form.elements.verdict.value;
    if (verdict !== "" && level.verdict !== Number(verdict)) return false;
    return [...form.querySelectorAll("[type=number]")].filter(({ value }) => value !== "").every(({ name, value }) => {
      const [what, end] = name.split("-");
      return end === "from" ? level[what] >= Number(value) : level[what] <= Number(value);
    });
  }

  function filter() {
    for (const level of levels) level.item.hidden = !isWanted(level);
    const count = levels.filter(({ item }) => !item.hidden).length;
    element("shown").textContent = `${count} of ${counted(levels.length, "level")}`;
  }

  /** Those that have nothing to sort by come last, in either order. */
  function sort() {
    const by = form.elements.sort.value;
    const sign = form.elements.down.checked ? -1 : 1;
    const order = (a, b) => (by === "title" ? a.title.localeCompare(b.title, "en", { numeric: true }) : a[by] - b[by]);
    const has = (level) => Boolean(level[by]) || level[by] === 0;
    levels.sort((a, b) => has(b) - has(a) || (has(a) ? sign * order(a, b) : 0) || a.number - b.number);
    const items = levels.map(({ item }) => item);
    if (items.some((item, at) => item !== list.children[at])) list.append(...items);
  }

  const both = () => { sort(); filter(); };
  form.oninput = ({ target }) => (["sort", "down"].includes(target.name) ? sort() : filter());
  form.onreset = () => setTimeout(both);
  form.onsubmit = (event) => event.preventDefault();
  addEventListener("pageshow", both);
  form.hidden = false;
}

if (element("level")) showLevel();
else showOverview();
