// How many characters of a text are shown: a page's address may be megabytes long. All of it is searched and copied.
const SHOWN_CHARACTERS = 2000;
// How many pages of one tab, and how many windows beside the tabs, are shown at once.
const SHOWN_PAGES = 200;
const SHOWN_PLACES = 200;
// Rows are made in chunks when they come near what is seen, since a session may have very many tabs.
const LEAST_CHUNK = 40;
const MOST_CHUNKS = 1000;
const ROW_HEIGHT = 70;

// Units that aren't seen, or change how others are seen: controls, direction marks, separators, halves of pairs.
const HIDDEN = /[\0-\x1f\x7f-\x9f\u061c\u200b\u200e\u200f\u2028-\u202e\u2060-\u206f\ufeff\p{Cs}]/u;
const EACH_HIDDEN = new RegExp(HIDDEN, "gu");

const inHex = (number, digits) => number.toString(16).padStart(digits, "0");

// A text as it is put on the page: its characters, and the ranges in which they stand for others.
class Text {
  characters = "";
  odd = [];

  add(characters) {
    let from = 0;
    if (HIDDEN.test(characters)) {
      for (const found of characters.matchAll(EACH_HIDDEN)) {
        this.characters += characters.slice(from, found.index);
        this.addOdd("\\u" + inHex(found[0].charCodeAt(0), 4));
        from = found.index + 1;
      }
    }
    this.characters += from === 0 ? characters : characters.slice(from);
  }

  addOdd(characters) {
    const from = this.characters.length;
    this.characters += characters;
    this.odd.push([from, this.characters.length]);
  }
}

// The texts of the session are shown texts: docs/FORMAT.md, "How a file is reported". Each is read back once.
function titleOf(shown) {
  const text = new Text();
  text.add(
    shown.includes("\\")
      ? shown.replace(/\\(?:\\|x22|u([0-9a-f]{4}))/g, (found, unit) =>
          unit ? String.fromCharCode(parseInt(unit, 16)) : found === "\\\\" ? "\\" : '"')
      : shown);
  return text;
}

function addressOf(shown) {
  const text = new Text();
  if (!shown.includes("\\")) {
    text.add(shown);
    return text;
  }
  for (const [part] of shown.matchAll(/(?:\\x(?!22)[0-9a-f]{2})+|\\\\|\\x22|[^\\]+|\\/g)) {
    if (part === "\\\\") text.add("\\");
    else if (part === "\\x22") text.add('"');
    else if (part.length > 1 && part[0] === "\\") addBytes(text, part);
    else text.add(part);
  }
  return text;
}

// Bytes that are a character's UTF-8 are put in as the character, where it is one that is seen; others stay in hex.
function addBytes(text, part) {
  const bytes = part.slice(2).split("\\x").map((digits) => parseInt(digits, 16));
  for (let at = 0; at < bytes.length;) {
    const [length, code] = characterAt(bytes, at);
    const character = length === 0 ? "" : String.fromCodePoint(code);
    const taken = Math.max(length, 1);
    if (length === 0 || HIDDEN.test(character)) text.addOdd(part.slice(4 * at, 4 * (at + taken)));
    else text.add(character);
    at += taken;
  }
}

// The length of the character's UTF-8 at a place, and its code; 0 where none stands there.
function characterAt(bytes, at) {
  const first = bytes[at];
  if (first < 0x80) return [1, first];
  const length = first < 0xc2 ? 0 : first < 0xe0 ? 2 : first < 0xf0 ? 3 : first < 0xf5 ? 4 : 0;
  let code = first & (0x7f >> length);
  for (let next = at + 1; next < at + length; next++) {
    if ((bytes[next] & 0xc0) !== 0x80) return [0, 0];
    code = (code << 6) | (bytes[next] & 0x3f);
  }
  const least = [0, 0, 0x80, 0x800, 0x10000][length];
  const fits = length > 0 && code >= least && code <= 0x10ffff && !(code >= 0xd800 && code <= 0xdfff);
  return fits ? [length, code] : [0, 0];
}

// What is searched of a page: the characters that are seen, in small letters, made when it is first asked for.
function searched(page) {
  page.searched ??= (titleOf(page.title).characters + "\n" + addressOf(page.url).characters).toLowerCase();
  return page.searched;
}

const query = { terms: [] };

function termsOf(typed) {
  return typed.toLowerCase().split(/\s+/).filter((term) => term !== "");
}

function matches(page) {
  const all = searched(page);
  return query.terms.every((term) => all.includes(term));
}

// The ranges of what was searched for, in order and apart from each other.
function foundRanges(characters) {
  const small = characters.toLowerCase();
  // A few letters get longer when they are made small; places in such a text aren't those of the text that is seen.
  if (query.terms.length === 0 || small.length !== characters.length) return [];
  const ranges = [];
  for (const term of query.terms) {
    for (let at = small.indexOf(term); at >= 0; at = small.indexOf(term, at + term.length)) {
      ranges.push([at, at + term.length]);
    }
  }
  ranges.sort((one, other) => one[0] - other[0]);
  const apart = [];
  for (const [from, to] of ranges) {
    const last = apart.at(-1);
    if (last && from <= last[1]) last[1] = Math.max(last[1], to);
    else apart.push([from, to]);
  }
  return apart;
}

function make(name, className, ...children) {
  const element = document.createElement(name);
  if (className) element.className = className;
  element.append(...children);
  return element;
}

function makeButton(className, text, label) {
  const button = make("button", className, text);
  button.type = "button";
  if (label) button.setAttribute("aria-label", label);
  return button;
}

// Puts a text into an element as text nodes, with marks around what was searched for and around what stands for others.
function put(element, text) {
  let characters = text.characters;
  if (characters.length > SHOWN_CHARACTERS) {
    characters = characters.slice(0, SHOWN_CHARACTERS).replace(/[\ud800-\udbff]$/, "");
  }
  const found = foundRanges(characters);
  const places = new Set([0, characters.length]);
  for (const range of [...found, ...text.odd]) {
    for (const place of range) if (place < characters.length) places.add(place);
  }
  const sorted = [...places].sort((one, other) => one - other);
  let nextFound = 0;
  let nextOdd = 0;
  for (let index = 0; index + 1 < sorted.length; index++) {
    const from = sorted[index];
    while (nextFound < found.length && found[nextFound][1] <= from) nextFound++;
    while (nextOdd < text.odd.length && text.odd[nextOdd][1] <= from) nextOdd++;
    let node = document.createTextNode(characters.slice(from, sorted[index + 1]));
    if (nextOdd < text.odd.length && text.odd[nextOdd][0] <= from) node = make("span", "odd", node);
    if (nextFound < found.length && found[nextFound][0] <= from) node = make("mark", "", node);
    element.append(node);
  }
  const left = text.characters.length - characters.length;
  if (left > 0) element.append(make("span", "none", ` … and ${count(left, "character")} more`));
}

function count(number, noun) {
  const many = noun.endsWith("y") ? noun.slice(0, -1) + "ies" : noun + "s";
  return `${number.toLocaleString("en")} ${number === 1 ? noun : many}`;
}
