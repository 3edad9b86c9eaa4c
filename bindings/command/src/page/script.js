"use strict";
// Draws the section whose JSON stands in this page. It sets text and attributes alone, never HTML. What is said of a proof or proposition
// (authorised, depth, mark, way down) stands in that JSON; pictures follow the parent cells as they stand there too.

const section = JSON.parse(document.getElementById("section").textContent);
const { propositions, proofs, witnesses } = section;
const PROPOSITIONS = 50, PROOFS = 20, WITNESSES = 10; // so many to a page
const ROOM = 60; // proofs of a picture at first, and so many more at each wish
const MARKS = { 1: "positive", 2: "negative", 3: "both" };
const ENDS = {
  1: "every walk down ends at a positive witness",
  2: "every walk down ends at a negative witness",
  3: "some walks down end at a positive witness, some at a negative one",
};
const POLARITIES = { 1: "positive", 0: "negative" };

const proofsOf = propositions.map(() => []);
const ownerOf = witnesses.map(() => null);
for (const proof of proofs) {
  proofsOf[proof.proposition].push(proof.number);
  for (const witness of proof.witnesses) ownerOf[witness] = proof.number;
}

const byId = (id) => document.getElementById(id);
const plain = (number) => number.toLocaleString("en");
const counted = (number, noun, more = noun + "s") => `${plain(number)} ${number === 1 ? noun : more}`;

// ---- Elements

function element(name, attributes, ...children) {
  return filled(document.createElement(name), attributes, children);
}

function drawn(name, attributes, ...children) {
  return filled(document.createElementNS("http://www.w3.org/2000/svg", name), attributes, children);
}

function filled(made, attributes, children) {
  for (const [name, value] of Object.entries(attributes)) {
    if (name === "onclick") made.addEventListener("click", value);
    else if (value !== false) made.setAttribute(name, value === true ? "" : value);
  }
  made.append(...children);
  return made;
}

// Characters that do not show, or that turn the direction of others, as their numbers.
const HIDDEN = /[\p{C}\p{Zl}\p{Zp}\p{Default_Ignorable_Code_Point}]/u;
const codeOf = (character) => "U+" + character.codePointAt(0).toString(16).toUpperCase().padStart(4, "0");

function shownText(text, most = Infinity) {
  const characters = Array.from(text);
  const front = characters.slice(0, most).map((c) => (HIDDEN.test(c) ? `[${codeOf(c)}]` : c));
  return front.join("") + (characters.length > most ? "\u2026" : "");
}

function shown(text, className) {
  const isolated = element("bdi", className ? { class: className } : {});
  let run = "";
  for (const character of text) {
    if (!HIDDEN.test(character)) {
      run += character;
      continue;
    }
    isolated.append(run, element("span", { class: "code" }, codeOf(character)));
    run = "";
  }
  isolated.append(run);
  return isolated;
}

const tagged = (word) => element("span", { class: word }, word);
const authorisedWord = ({ authorised }) => (authorised ? element("span", { class: "positive" }, "authorised") : "not authorised");
const authorisedWhy = ({ authorised }) => `${authorised ? "some" : "no"} proof of it has operation 1 and a positive mark`;

function facts(pairs) {
  return element("dl", {}, ...pairs.flatMap(([name, value]) => [element("dt", {}, name), element("dd", {}, value)]));
}

// Buttons to the page before and after, and the page's number.
function pager(count, size, page, go) {
  const last = Math.max(0, Math.ceil(count / size) - 1);
  if (last === 0) return [];
  const button = (name, to) => element("button", { type: "button", disabled: to < 0 || to > last || to === page, onclick: () => go(to) }, name);
  const where = element("span", { class: "soft" }, `page ${plain(page + 1)} of ${plain(last + 1)}`);
  return [button("First", 0), button("Previous", page - 1), where, button("Next", page + 1), button("Last", last)];
}

// ---- The list of propositions

const list = { numbers: propositions.map((p) => p.number), page: 0 };

// The propositions that a search names: by its number, a proof's, a witness's, the start of a digest, or a part of the kind.
function matches(words) {
  const [, table, digits] = /^(?:(proof|witness|proposition)\s+)?(\d+)$/.exec(words) ?? [];
  const number = Number(digits);
  if (table === "proof") return proofs[number] ? [proofs[number].proposition] : [];
  if (table === "witness") return witnesses[number] ? [witnesses[number].proposition] : [];
  const found = new Set(propositions[number] ? [number] : []);
  if (table === "proposition") return [...found];
  if (/^[0-9a-f]{6,64}$/.test(words)) {
    for (const w of witnesses) if (w.file.startsWith(words) || w.origin.startsWith(words)) found.add(w.proposition);
  }
  for (const p of propositions) if (p.kind.toLowerCase().includes(words)) found.add(p.number);
  return [...found].sort((a, b) => a - b);
}

function search() {
  const words = byId("search").value.trim().toLowerCase();
  const which = byId("which").value;
  const found = words ? matches(words) : propositions.map((p) => p.number);
  list.numbers = which === "all" ? found : found.filter((n) => propositions[n].authorised === (which === "yes"));
  list.page = 0;
  showList();
}

function showList() {
  const { numbers, page } = list;
  const chosen = asked().proposition;
  const items = numbers.slice(page * PROPOSITIONS, (page + 1) * PROPOSITIONS).map((number) => {
    const p = propositions[number];
    const about = `owner ${p.owner}, scope ${p.scope}, type ${p.type}; ${counted(proofsOf[number].length, "proof")}; `;
    const parts = [shown(p.kind, "short"), element("span", { class: "soft" }, `no. ${number}`), element("small", {}, about, authorisedWord(p))];
    const attributes = { type: "button", class: number === chosen ? "chosen" : "", "aria-current": number === chosen && "true" };
    return element("li", {}, element("button", { ...attributes, onclick: () => go({ proposition: number }) }, ...parts));
  });
  byId("propositions").replaceChildren(...items);
  byId("found").replaceChildren(`${counted(numbers.length, "proposition")} of ${plain(propositions.length)}`);
  byId("pages").replaceChildren(...pager(numbers.length, PROPOSITIONS, page, (to) => ((list.page = to), showList())));
}

// ---- One proposition, with its proofs

function showProposition(number, chosenProof, page) {
  const place = byId("proposition");
  if (number === undefined) return place.replaceChildren();
  const p = propositions[number];
  const own = proofsOf[number];
  const names = ["proof", "rule", "authority", "operation", "depth", "mark", "rests on", "way down"];
  const rows = own.slice(page * PROOFS, (page + 1) * PROOFS).map((n) => {
    const proof = proofs[n];
    const open = element("button", { type: "button", onclick: () => go({ proof: n }) }, `proof ${n}`);
    const cells = [open, shown(proof.rule), plain(proof.authority), proof.operation, proof.depth, tagged(MARKS[proof.mark]), restsOn(proof), wayWords(proof)];
    return element("tr", { class: n === chosenProof ? "chosen" : "" }, ...cells.map((cell) => element("td", {}, cell)));
  });
  const head = element("tr", {}, ...names.map((name) => element("th", { scope: "col" }, name)));
  place.replaceChildren(
    element("h2", {}, `Proposition ${number}: `, authorisedWord(p)),
    facts([
      ["kind", shown(p.kind, "long")],
      ["owner, scope, type", `${p.owner}, ${p.scope}, ${p.type}`],
      [p.authorised ? "authorised" : "not authorised", authorisedWhy(p)],
    ]),
    element("h3", {}, own.length ? counted(own.length, "ruling") : "No ruling: no proof is of this proposition"),
    own.length ? element("div", { class: "wide" }, element("table", {}, element("thead", {}, head), element("tbody", {}, ...rows))) : "",
    element("div", { class: "pages" }, ...pager(own.length, PROOFS, page, (to) => showProposition(number, chosenProof, to))),
  );
}

function restsOn(proof) {
  return [...proof.witnesses.map((n) => `witness ${n}`), ...proof.parents.map((n) => `proof ${n}`)].join(", ");
}

function wayWords({ down }) {
  return "spent" in down ? `spent at proof ${down.spent}` : `witness ${down.witness}, ${counted(down.moves, "move")}`;
}

// ---- One proof: the picture of its derivation, and its witnesses

// The proofs reached by parent cells, nearest first, at most so many.
function reached(root, most) {
  const all = [root], seen = new Set(all);
  for (const number of all) {
    for (const parent of proofs[number].parents) {
      if (seen.has(parent)) continue;
      if (all.length === most) return all;
      seen.add(parent);
      all.push(parent);
    }
  }
  return all;
}

// The proofs by first parents, down to one without.
function firstParents(root) {
  const way = [root];
  for (let at = root; proofs[at].parents.length; at = proofs[at].parents[0]) way.push(proofs[at].parents[0]);
  return way;
}

const WIDE = 168, HIGH = 58, BETWEEN = 22, BELOW = 46;

// Where each proof stands: a row for each depth, the deepest first; in a row by the middle of those above.
function placed(numbers) {
  const depths = [...new Set(numbers.map((n) => proofs[n].depth))].sort((a, b) => b - a);
  const rows = depths.map((depth) => numbers.filter((n) => proofs[n].depth === depth));
  const above = new Map(numbers.map((n) => [n, []]));
  for (const n of numbers) for (const parent of proofs[n].parents) above.get(parent)?.push(n);
  const widest = Math.max(...rows.map((row) => row.length));
  const width = widest * (WIDE + BETWEEN) + BETWEEN;
  const places = new Map();
  const middle = (n) => above.get(n).reduce((sum, m) => sum + places.get(m).x, 0) / Math.max(1, above.get(n).length);
  rows.forEach((row, at) => {
    const middles = new Map(row.map((n) => [n, middle(n)]));
    row.sort((a, b) => middles.get(a) - middles.get(b) || a - b);
    row.forEach((n, i) => places.set(n, { x: width / 2 + (i - (row.length - 1) / 2) * (WIDE + BETWEEN), y: BETWEEN + at * (HIGH + BELOW) }));
  });
  return { places, width, height: BETWEEN * 2 + rows.length * (HIGH + BELOW) };
}

function box(className, { x, y }, lines, label, onclick) {
  const rect = drawn("rect", { x: x - WIDE / 2, y, width: WIDE, height: HIGH, rx: className.includes("witness") ? 26 : 6 });
  const texts = lines.map((line, at) => drawn("text", { x, y: y + 18 + at * 16, class: at ? "" : "name" }, line));
  const node = drawn("g", { class: "node " + className, tabindex: 0, role: "link", "aria-label": label, onclick }, rect, ...texts);
  node.addEventListener("keydown", (event) => event.key === "Enter" && onclick());
  return node;
}

function curve(className, from, to) {
  const top = from.y + HIGH, half = (top + to.y) / 2;
  return drawn("path", { class: "edge " + className, d: `M${from.x} ${top}C${from.x} ${half} ${to.x} ${half} ${to.x} ${to.y}` });
}

function picture(root, room) {
  const numbers = reached(root, room);
  const { places, width, height } = placed(numbers);
  const way = new Set(firstParents(root));
  const edges = [], nodes = [];
  let bottom = height;
  for (const n of numbers) {
    const proof = proofs[n], place = places.get(n);
    proof.parents.forEach((parent, at) => {
      const onWay = at === 0 && way.has(n) ? "way" : "";
      const to = places.get(parent);
      edges.push(to ? curve(onWay, place, to) : curve("cut " + onWay, place, { x: place.x + (at ? 30 : -30), y: place.y + HIGH + BELOW / 2 }));
    });
    const kind = [MARKS[proof.mark], proof.operation ? "operation" : "", n === root ? "root" : ""].join(" ");
    const lines = [`proof ${n}`, shownText(proof.rule, 20), `depth ${proof.depth}, ${MARKS[proof.mark]}`];
    nodes.push(box(kind, place, lines, lines.join(", "), () => go({ proof: n })));
    proof.witnesses.forEach((number) => {
      const w = witnesses[number], at = { x: place.x, y: place.y + HIGH + BELOW };
      bottom = Math.max(bottom, at.y + HIGH + BETWEEN);
      edges.push(curve(way.has(n) ? "way" : "", place, at));
      const words = [`witness ${number}`, POLARITIES[w.polarity], `span ${w.start} to ${w.end}`];
      nodes.push(box("witness " + POLARITIES[w.polarity], at, words, words.join(", "), () => byId("witness-" + number)?.scrollIntoView({ block: "center" })));
    });
  }
  const title = drawn("title", {}, `Derivation of proof ${root}`);
  const size = { width, height: bottom, viewBox: `0 0 ${width} ${bottom}` };
  const svg = drawn("svg", { ...size, role: "group", "aria-label": `Derivation of proof ${root}` }, title, ...edges, ...nodes);
  return { svg, numbers, middle: places.get(root).x };
}

function witnessItem(number) {
  const w = witnesses[number];
  const title = element("strong", {}, `Witness ${number}: `, tagged(POLARITIES[w.polarity]));
  const fields = [["span", `${w.start} to ${w.end}`], ["file digest", element("code", {}, w.file)], ["origin digest", element("code", {}, w.origin)]];
  return element("li", { id: "witness-" + number }, title, facts([...fields, ["owned by", `proof ${ownerOf[number]}`]]));
}

function showProof(number, room = ROOM) {
  const place = byId("proof");
  if (number === undefined) return place.replaceChildren();
  const proof = proofs[number];
  const all = reached(number, Infinity);
  const ends = [...new Set(all.flatMap((n) => proofs[n].witnesses))].sort((a, b) => a - b);
  const drawing = picture(number, room);
  const left = all.length - drawing.numbers.length;
  const more = element("button", { type: "button", onclick: () => showProof(number, room + ROOM) }, `Draw ${Math.min(ROOM, left)} more`);
  const rest = left ? [element("p", { class: "soft" }, `${counted(left, "proof")} further down not drawn: a dashed line leads there. `, more)] : [];
  const holder = element("div", { class: "picture" }, drawing.svg);
  const witnessList = element("ol", { class: "witnesses" }), pages = element("div", { class: "pages" });
  const turn = (page) => {
    witnessList.replaceChildren(...ends.slice(page * WITNESSES, (page + 1) * WITNESSES).map(witnessItem));
    pages.replaceChildren(...pager(ends.length, WITNESSES, page, turn));
  };
  turn(0);
  place.replaceChildren(
    element("h2", {}, `Proof ${number}`),
    facts([
      ["rule", shown(proof.rule)],
      ["mark", element("span", {}, tagged(MARKS[proof.mark]), `: ${ENDS[proof.mark]}`)],
      ["authority, operation, depth", `${plain(proof.authority)}, ${proof.operation}, ${proof.depth}`],
      ["way down", wayWords(proof)],
    ]),
    element("h3", {}, "Derivation"),
    element(
      "p",
      { class: "soft" },
      `It rests on ${counted(all.length - 1, "further proof")} and ${counted(ends.length, "witness", "witnesses")}. `,
      "The thick line is the way down; a thick frame has operation 1. A click opens a proof.",
    ),
    holder,
    ...rest,
    element("h3", {}, counted(ends.length, "witness", "witnesses")),
    witnessList,
    pages,
  );
  holder.scrollLeft = drawing.middle - holder.clientWidth / 2;
}

// ---- What the address asks for: #proposition=2 or #proof=5

function asked() {
  const found = /^#(proposition|proof)=(\d+)$/.exec(location.hash);
  if (!found) return {};
  const number = Number(found[2]);
  if (found[1] === "proof") return proofs[number] ? { proof: number, proposition: proofs[number].proposition } : {};
  return propositions[number] ? { proposition: number } : {};
}

function go({ proposition, proof }) {
  location.hash = proof === undefined ? `proposition=${proposition}` : `proof=${proof}`;
}

function show() {
  const { proposition, proof } = asked();
  const own = proposition === undefined ? [] : proofsOf[proposition];
  if (list.numbers.includes(proposition)) list.page = Math.floor(list.numbers.indexOf(proposition) / PROPOSITIONS);
  showList();
  showProposition(proposition, proof, Math.max(0, Math.floor(own.indexOf(proof) / PROOFS)));
  showProof(proof);
}

function turnTo() {
  show();
  const { proof } = asked();
  byId(proof === undefined ? "proposition" : "proof").scrollIntoView({ block: "start" });
}

byId("head").replaceWith(
  facts([
    ["file", shown(section.file)],
    ["policy", shown(section.policy)],
    ["issuer", shown(section.issuer)],
    ["epoch", section.epoch],
    ["source set", element("code", {}, section.source_set)],
    ["compiler contract", element("code", {}, section.compiler_contract)],
    ["holds", [counted(propositions.length, "proposition"), counted(proofs.length, "proof"), counted(witnesses.length, "witness", "witnesses")].join(", ")],
  ]),
);
byId("search").addEventListener("input", search);
byId("which").addEventListener("change", search);
addEventListener("hashchange", turnTo);
show();
