// Has each conflict of the page answered, and writes the answers as a file, which
// `usfm_team settle PROJECT --answers FILE` takes in. It asks nothing of any network.
"use strict";

// An element with some properties, and what is in it.
function made(name, properties, ...inside) {
  const element = Object.assign(document.createElement(name), properties);
  element.append(...inside);
  return element;
}

// A button to choose with, in a label, after which its words stand.
function choice(reference, value, words) {
  const button = made("input", { type: "radio", name: reference, value });
  button.setAttribute("aria-label", `${reference}: ${words}`);
  return made("label", {}, button, words);
}

// What the browser keeps of a conflict, if it keeps anything.
function kept(key) {
  try {
    return JSON.parse(localStorage.getItem(key)) ?? {};
  } catch {
    return {};
  }
}

// Has the browser keep that. If it keeps nothing, what was ticked stays as long as the page does.
function keep(key, answer) {
  try {
    localStorage.setItem(key, JSON.stringify(answer));
  } catch {}
}

// A text after its length in bytes.
function counted(word, text) {
  return `${word} ${new TextEncoder().encode(text).length}\n${text}\n`;
}

// A conflict of the page: which texts it has, and what is chosen.
class Conflict {
  constructor(fieldset) {
    this.fieldset = fieldset;
    this.reference = fieldset.querySelector("legend").textContent;
    this.ids = fieldset.dataset.ids.trim().split(" ");
    this.entries = [...fieldset.querySelectorAll(".texts > div")];
    this.texts = this.entries.map((entry) => entry.querySelector(".said")?.textContent);
    // Another project may have the same ids, but not with the same texts.
    this.key = ["usfm_team", this.reference, ...this.ids, ...this.texts].join("\n");
    this.own = made("textarea", { dir: "auto", rows: 4, spellcheck: false });
    this.own.value = this.texts[0] ?? "";
    this.own.setAttribute("aria-label", `${this.reference}: the text of my own`);
    this.remark = made("input", { type: "text", dir: "auto" });
    this.remark.setAttribute("aria-label", `${this.reference}: a remark`);
    this.name();
    this.add();
    this.restore();
    fieldset.addEventListener("input", (event) => this.changed(event.target));
  }

  // Makes one button of a group of the box of each text.
  name() {
    this.entries.forEach((entry, place) => {
      const box = entry.querySelector("input");
      const words = `${box.parentElement.textContent}: ${this.texts[place] ?? "no text"}`;
      Object.assign(box, { type: "radio", name: this.reference, value: this.ids[place] });
      box.setAttribute("aria-label", `${this.reference}: ${words}`);
    });
  }

  // Adds a text of one's own, not now, and a remark.
  add() {
    const own = made("p", {}, choice(this.reference, "own", "A text of my own"), this.own);
    const later = made("p", {}, choice(this.reference, "later", "Not now"));
    const remark = made("p", {}, made("label", {}, "Remark ", this.remark));
    this.fieldset.append(made("div", { className: "answer" }, own, later, remark));
  }

  // What is chosen: an id, `own` or `later`.
  get chosen() {
    return this.fieldset.querySelector("input:checked").value;
  }

  // Whoever types a text has chosen it. What is chosen is kept.
  changed(element) {
    if (element === this.own) {
      this.choose("own");
    }
    keep(this.key, { chosen: this.chosen, text: this.own.value, remark: this.remark.value });
  }

  // Ticks the button of this value.
  choose(value) {
    for (const button of this.fieldset.querySelectorAll("[type=radio]")) {
      button.checked = button.value === value;
    }
  }

  // Has what was chosen before.
  restore() {
    const { chosen = "later", text = this.own.value, remark = "" } = kept(this.key);
    this.choose(chosen);
    this.own.value = text;
    this.remark.value = remark;
  }

  // The lines of the answer: none, if nothing is chosen and nothing remarked. A text ends its line.
  get lines() {
    const { chosen, remark } = this;
    const text = this.own.value.replace(/\n?$/, "\n");
    let lines = "";
    if (this.ids.includes(chosen)) {
      lines += `take ${chosen}\n`;
    } else if (chosen === "own" && text.trim() !== "") {
      lines += counted("text", text);
    }
    if (remark.value !== "") {
      lines += counted("remark", remark.value);
    }
    return lines && `conflict ${this.reference} ${this.ids.join(" ")}\n${lines}`;
  }
}

// Gives the answers to the browser as a file, named by the copy and the day.
function write(conflicts) {
  const lines = conflicts.map((conflict) => conflict.lines);
  const file = new Blob(["USFM answers 1\n", ...lines], { type: "application/octet-stream" });
  const copy = document.querySelector("dd").textContent;
  const link = made("a", { href: URL.createObjectURL(file) });
  link.download = `${copy}-${new Date().toISOString().slice(0, 10)}.answers`;
  link.click();
  setTimeout(() => URL.revokeObjectURL(link.href), 60000);
}

const conflicts = [...document.querySelectorAll("fieldset")].map((it) => new Conflict(it));
if (conflicts.length > 0) {
  const button = made("button", { type: "button" }, "Write the answers as a file");
  const count = made("span", { role: "status" });
  const tell = () => {
    const answered = conflicts.filter((conflict) => conflict.lines !== "").length;
    count.textContent = ` ${answered} of ${conflicts.length} answered`;
  };
  button.addEventListener("click", () => write(conflicts));
  document.addEventListener("input", tell);
  document.querySelector("#awaited").before(made("p", { className: "write" }, button, count));
  tell();
}
