const root = document.documentElement;
const content = document.getElementById("content");
const input = document.getElementById("query");
const foundLine = document.getElementById("found");
const placesList = document.getElementById("places");
const allButton = document.getElementById("all");
const themeButton = document.getElementById("theme");
const told = document.getElementById("told");

// A group is a run of tabs under a heading: a window, the heading of what was closed, a closed window, or closed tabs.
function groupsOf(session) {
  const groups = session.windows.map((window, place) => ({
    kind: "window",
    name: `Window ${place + 1}`,
    id: window.id,
    tabs: window.tabs,
    selected: window.selected,
    active: window.id === session.active,
  }));
  const entries = session.closed.length;
  if (entries > 0) groups.push({ kind: "closed", name: "Closed", tabs: [], entries });
  for (const entry of session.closed) {
    if (entry.kind === "window") {
      groups.push({ kind: "closed-window", name: "Closed window", id: entry.id, tabs: entry.tabs });
    } else if (groups.at(-1).kind === "closed-tabs") {
      groups.at(-1).tabs.push(entry);
    } else {
      groups.push({ kind: "closed-tabs", name: "Closed tabs", tabs: [entry] });
    }
  }
  return groups;
}

// The items that are seen for what is searched: a heading for each group with a tab in it, and a row for each tab.
function itemsOf(groups) {
  const items = [];
  const sum = { tabs: 0, pages: 0, entries: 0 };
  const searching = query.terms.length > 0;
  let closed = null;
  for (const group of groups) {
    if (group.kind === "closed") {
      closed = group;
      group.seen = 0;
      continue;
    }
    const rows = [];
    group.tabs.forEach((tab, place) => {
      const hits = searching ? [...tab.pages.keys()].filter((at) => matches(tab.pages[at])) : [];
      if (searching && hits.length === 0) return;
      rows.push({ group, tab, hits, selected: group.selected === place });
      if (group.kind === "window") sum.pages += hits.length;
    });
    group.seen = rows.length;
    if (searching && rows.length === 0) continue;
    if (group.kind === "window") {
      sum.tabs += rows.length;
    } else {
      const entries = group.kind === "closed-window" ? 1 : rows.length;
      sum.entries += entries;
      if (closed.seen === 0) closed.at = items.push({ heading: closed }) - 1;
      closed.seen += entries;
    }
    group.at = items.length;
    items.push({ heading: group });
    for (const row of rows) items.push(row);
  }
  return [items, sum];
}

function headingOf(group) {
  const inner = group.kind === "closed-window" || group.kind === "closed-tabs";
  const heading = make(inner ? "h3" : "h2", "", make("span", "", group.name));
  heading.tabIndex = -1;
  if (group.active) heading.append(make("span", "badge", "Active"));
  let note = count(group.tabs.length, "tab");
  if (group.kind === "closed") note = `${count(group.entries, "entry")}, the newest first`;
  else if (group.kind !== "closed-tabs") note += `, id ${group.id}`;
  heading.append(make("span", "note", note));
  group.heading = heading;
  return heading;
}

const addresses = new WeakMap();

function textsOf(page) {
  const title = titleOf(page.title);
  const address = addressOf(page.url);
  const titleLine = make("div", "title");
  const addressLine = make("div", "address");
  const shown = make("bdi", title.characters === "" ? "none" : "");
  if (title.characters === "") shown.textContent = "No title";
  else put(shown, title);
  titleLine.append(shown);
  const left = make("bdi");
  left.dir = "ltr";
  put(left, address);
  addressLine.append(left);
  const name = (title.characters || address.characters).slice(0, 100);
  const copy = makeButton("copy", "Copy", `Copy the address of ${name}`);
  addresses.set(copy, address.characters);
  return { text: make("div", "text", titleLine, addressLine), copy, name };
}

// Tabs whose pages are shown, or with `all` those whose pages aren't.
const turned = new Set();
let all = false;

function rowOf(item) {
  const { group, tab, hits } = item;
  const element = make("li", "tab");
  const open = turned.has(tab) !== all;
  if (tab.pages.length === 0) {
    element.append(make("div", "row", make("p", "none", `Tab ${tab.id} has no pages`)));
    return element;
  }
  // Which page a closed tab showed isn't told.
  const current = tab.current ?? tab.pages.length - 1;
  const { text, copy, name } = textsOf(tab.pages[current]);
  const unfold = makeButton("unfold", count(tab.pages.length, "page"), `${count(tab.pages.length, "page")} of ${name}`);
  unfold.setAttribute("aria-expanded", String(open));
  unfold.addEventListener("click", () => {
    if (!turned.delete(tab)) turned.add(tab);
    const other = rowOf(item);
    element.replaceWith(other);
    other.querySelector(".unfold").focus();
  });
  const row = make("div", "row", text);
  if (tab.pinned) row.append(make("span", "badge", "Pinned"));
  if (item.selected) row.append(make("span", "badge", "Selected"));
  row.append(make("div", "tools", unfold, copy));
  element.append(row);
  const pages = open ? [...tab.pages.keys()] : hits.filter((page) => page !== current);
  if (pages.length > 0) element.append(pagesOf(tab, pages));
  return element;
}

function pagesOf(tab, pages) {
  const list = make("ol", "pages");
  list.setAttribute("role", "list");
  list.setAttribute("aria-label", `Pages of tab ${tab.id}`);
  const add = (from) => {
    for (const place of pages.slice(from, from + SHOWN_PAGES)) {
      const { text, copy } = textsOf(tab.pages[place]);
      const tools = make("div", "tools", copy);
      const element = make("li", "", make("span", "place", String(place + 1)), text, tools);
      if (place === tab.current) {
        element.setAttribute("aria-current", "true");
        tools.prepend(make("span", "badge", "Current"));
      }
      list.append(element);
    }
    const left = pages.length - from - SHOWN_PAGES;
    if (left <= 0) return;
    const more = makeButton("", `${count(left, "page")} more`);
    const last = make("li", "", more);
    more.addEventListener("click", () => {
      add(from + SHOWN_PAGES);
      last.nextSibling.querySelector("button").focus();
      last.remove();
    });
    list.append(last);
  };
  add(0);
  return list;
}

// The chunks of the rows that are seen now.
let chunks = [];
let chunkSize = LEAST_CHUNK;
let items = [];

function fill(place) {
  const chunk = chunks[place];
  watcher.unobserve(chunk);
  if (chunk.childNodes.length > 0) return;
  let list = null;
  let group = null;
  for (const item of items.slice(place * chunkSize, (place + 1) * chunkSize)) {
    if (item.heading) {
      chunk.append(headingOf(item.heading));
      list = null;
      continue;
    }
    if (list === null || item.group !== group) {
      group = item.group;
      list = make("ol", group.kind === "window" ? "tabs" : "tabs inner");
      list.setAttribute("role", "list");
      list.setAttribute("aria-label", group.name);
      chunk.append(list);
    }
    list.append(rowOf(item));
  }
  chunk.style.minHeight = "";
}

const watcher = new IntersectionObserver((seen) => {
  for (const one of seen) if (one.isIntersecting) fill(chunks.indexOf(one.target));
}, { rootMargin: "1200px" });

function show(groups) {
  let sum;
  [items, sum] = itemsOf(groups);
  watcher.disconnect();
  chunkSize = Math.max(LEAST_CHUNK, Math.ceil(items.length / MOST_CHUNKS));
  chunks = [];
  for (let from = 0; from < items.length; from += chunkSize) {
    const chunk = make("div", "chunk");
    chunk.style.minHeight = `${Math.min(chunkSize, items.length - from) * ROW_HEIGHT}px`;
    chunks.push(chunk);
  }
  const searching = query.terms.length > 0;
  content.replaceChildren(...chunks);
  const none = searching ? "Nothing matches." : "No tab is open, and none was closed.";
  if (chunks.length === 0) content.append(make("p", "empty", none));
  else fill(0);
  for (const chunk of chunks) watcher.observe(chunk);
  const parts = [];
  if (sum.tabs > 0) parts.push(`${count(sum.tabs, "tab")} with ${count(sum.pages, "page")}`);
  if (sum.entries > 0) parts.push(count(sum.entries, "closed entry"));
  foundLine.textContent = searching ? `Matching: ${parts.join(", ") || "nothing"}` : "";
  const led = groups.filter((group) => group.kind === "window" || group.kind === "closed");
  showPlaces(led.filter((group) => !searching || group.seen > 0));
}

function showPlaces(groups) {
  placesList.replaceChildren(...groups.slice(0, SHOWN_PLACES).map((group) => {
    const button = makeButton("", "");
    button.append(make("span", "", group.name));
    if (group.active) button.append(make("span", "badge", "Active"));
    button.append(make("span", "number", group.seen.toLocaleString("en")));
    button.addEventListener("click", () => {
      fill(Math.floor(group.at / chunkSize));
      group.heading.scrollIntoView();
      group.heading.focus({ preventScroll: true });
    });
    return make("li", "", button);
  }));
  const left = groups.length - SHOWN_PLACES;
  if (left > 0) placesList.append(make("li", "", make("p", "", `and ${left.toLocaleString("en")} more`)));
}

async function copyText(text) {
  try {
    await navigator.clipboard.writeText(text);
    return true;
  } catch {
    // Browsers that keep the clipboard from pages of files may still copy what is selected.
    const area = make("textarea", "unseen");
    area.value = text;
    document.body.append(area);
    area.select();
    const done = document.execCommand("copy");
    area.remove();
    return done;
  }
}

async function copyAddress(button) {
  const done = await copyText(addresses.get(button));
  button.focus();
  button.textContent = done ? "Copied" : "Not copied";
  told.textContent = done ? "The address is copied" : "The address could not be copied";
  setTimeout(() => {
    button.textContent = "Copy";
    told.textContent = "";
  }, 1500);
}

function followTheme() {
  const preferred = matchMedia("(prefers-color-scheme: dark)");
  let chosen = null;
  const use = () => {
    const dark = chosen ?? preferred.matches;
    root.dataset.theme = dark ? "dark" : "light";
    themeButton.setAttribute("aria-pressed", String(dark));
  };
  preferred.addEventListener("change", use);
  themeButton.addEventListener("click", () => {
    chosen = root.dataset.theme !== "dark";
    use();
  });
  use();
}

function showCounts(session) {
  const tabs = session.windows.flatMap((window) => window.tabs);
  const counts = {
    window: session.windows.length,
    tab: tabs.length,
    page: tabs.reduce((sum, tab) => sum + tab.pages.length, 0),
    "closed entry": session.closed.length,
  };
  const parts = Object.entries(counts).map(([noun, number]) => {
    const [figure, ...words] = count(number, noun).split(" ");
    return make("div", "", make("dt", "", words.join(" ")), make("dd", "", figure));
  });
  document.getElementById("counts").replaceChildren(...parts);
  document.title = `Session: ${count(counts.window, "window")}, ${count(counts.tab, "tab")}`;
}

function start() {
  followTheme();
  let session;
  try {
    session = JSON.parse(document.getElementById("session").textContent);
  } catch {
    content.replaceChildren(make("p", "empty", "This page holds no session that can be read."));
    return;
  }
  const groups = groupsOf(session);
  showCounts(session);
  show(groups);

  let timer = 0;
  const search = () => {
    clearTimeout(timer);
    query.terms = termsOf(input.value);
    show(groups);
    scrollTo(0, 0);
  };
  input.addEventListener("input", () => {
    clearTimeout(timer);
    timer = setTimeout(search, 60);
  });
  document.addEventListener("keydown", (event) => {
    if (event.key === "/" && document.activeElement !== input && !event.ctrlKey && !event.altKey && !event.metaKey) {
      event.preventDefault();
      input.focus();
      input.select();
    } else if (event.key === "Escape" && input.value !== "") {
      event.preventDefault();
      input.value = "";
      search();
    }
  });
  content.addEventListener("click", (event) => {
    const button = event.target.closest(".copy");
    if (button) copyAddress(button);
  });
  allButton.addEventListener("click", () => {
    all = !all;
    turned.clear();
    allButton.setAttribute("aria-pressed", String(all));
    show(groups);
  });
  addEventListener("beforeprint", () => chunks.forEach((chunk, place) => fill(place)));
  // When the first rows stood; a test reads it.
  performance.mark("shown");
}

start();
