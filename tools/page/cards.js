// Cards: the holes of 80 columns, and above them what the bytes say.

const CARD = { width: 738, height: 190, left: 9, pitch: 9, top: 30, down: 13 };

function cardOf(view, { bytes, stacker, made }, number, medium) {
  const { run } = view;
  const codes = codesOf(bytes);
  const svg = makeSvg("svg", { viewBox: `0 0 ${CARD.width} ${CARD.height}`, "aria-hidden": "true" });
  const edge = makeSvg("path", { class: "card-edge", d: `M18 0H${CARD.width}V${CARD.height}H0V18Z` });
  svg.append(edge, digitsOf(), makeSvg("path", { class: "hole", d: holesOf(run, codes) }));
  const text = codes.map((code) => run.signs[code]).join("");
  svg.append(rowOf("sign", 18, text));
  const face = make("div", { className: "face", tabIndex: 0 }, svg);
  face.columnCount = 80;
  const whole = made && medium === "reader" ? { ...made, reads: true } : made;
  view.columns(face, whole, 80, (column) => `card ${number} column ${column}`);
  const card = make("section", { className: "card", "aria-label": `Card ${number}: ${text.trimEnd()}` });
  const tells = [`card ${number}`, stacker, made && `${medium === "reader" ? "read" : "punched"} by ${run.number[made.moment]}`];
  card.append(make("span", { className: "folio" }, tells.filter(Boolean).join(" \u00b7 ")), face);
  return card;
}

// A hole for each row that is punched, as one path.
function holesOf(run, codes) {
  let path = "";
  codes.forEach((code, column) => {
    for (let row = 0; row < 12; row++) {
      const x = CARD.left + column * CARD.pitch + 2, y = CARD.top + row * CARD.down;
      if ((run.holes[code] >> row) & 1) path += `M${x} ${y}h5v9h-5z`;
    }
  });
  return path;
}

// The printed digits of rows 0 to 9.
function digitsOf() {
  const group = makeSvg("g", { class: "card-digits" });
  for (let digit = 0; digit < 10; digit++) {
    group.append(rowOf("digits", CARD.top + (digit + 2) * CARD.down + 8, String(digit).repeat(80)));
  }
  return group;
}

// A sign in each column.
function rowOf(kind, y, text) {
  return makeSvg("text", { class: kind, x: CARD.left + 2, y, textLength: CARD.pitch * 80 - 5 }, text);
}
