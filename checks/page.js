// Looks at the page that it stands in, and sends what it finds to the frame around: {faults, counts}. `checks/page` puts it into a copy of the page.
addEventListener("load", () => {
  const faults = new Set();
  const all = (selector, from = document) => [...from.querySelectorAll(selector)];
  const at = (element) => element.getBoundingClientRect();
  const begins = (element) => element.textContent.trim().replace(/\s+/g, " ").slice(0, 40);
  for (const it of all("details")) it.open = true;

  // Links and names.
  const ids = all("[id]").map((it) => it.id);
  for (const it of ids) if (ids.indexOf(it) !== ids.lastIndexOf(it)) faults.add(`the id ${it} stands twice`);
  for (const it of all("a"))
    if (!it.hash || it.pathname !== location.pathname || !document.getElementById(decodeURIComponent(it.hash.slice(1))))
      faults.add(`a link leads nowhere: ${it.getAttribute("href")}`);
  for (const it of performance.getEntriesByType("resource")) faults.add(`something is from outside: ${it.name}`);
  if (document.scripts.length !== 1) faults.add("the page has a script");

  // What is wider than the page.
  if (document.documentElement.scrollWidth > innerWidth) faults.add(`the page is ${document.documentElement.scrollWidth} wide`);
  for (const it of all("main *"))
    if (!it.closest(".scroll, figure, svg, .unseen") && at(it).right > innerWidth + 1) faults.add(`wider than the page: ${begins(it)}`);

  // Pictures. Two rectangles are apart where they share no more than an edge.
  const apart = (a, b, x = 1, y = 2) => a.right <= b.left + x || b.right <= a.left + x || a.bottom <= b.top + y || b.bottom <= a.top + y;
  const within = (a, b, by) => a.left >= b.left - by && a.right <= b.right + by && a.top >= b.top - by && a.bottom <= b.bottom + by;
  let pictures = 0;
  for (const picture of all("svg.pic")) {
    const whole = at(picture);
    if (!whole.width) continue;
    pictures += 1;
    const scale = whole.width / picture.viewBox.baseVal.width;
    if (scale < 0.5) faults.add(`a picture is shrunk to ${scale.toFixed(2)}`);
    const texts = all("text", picture).map((it) => [begins(it), at(it)]);
    const boxes = all("rect", picture).map(at);
    texts.forEach(([words, place], number) => {
      if (!within(place, whole, 1.5)) faults.add(`outside its picture: ${words}`);
      for (const [other, there] of texts.slice(number + 1)) if (!apart(place, there)) faults.add(`two texts on each other: ${words}, ${other}`);
      for (const box of boxes) if (!apart(place, box) && !within(place, box, 0.5)) faults.add(`out of its box or on another: ${words}`);
    });
    boxes.forEach((box, number) => {
      if (!within(box, whole, 1.5)) faults.add("a box is outside its picture");
      if (boxes.slice(number + 1).some((other) => !apart(box, other))) faults.add("two boxes on each other");
    });
  }

  // The cells of tables.
  for (const cell of all("td, th")) {
    for (const it of all("a, span:not(.unseen)", cell))
      if (at(it).width && !within(at(it), at(cell), 1.5)) faults.add(`out of its cell: ${begins(it)}`);
  }

  // Contrast of each text that is shown with what it stands on.
  const parts = (color) => color.match(/[\d.]+/g).map(Number);
  const light = (color) => {
    const [r, g, b] = parts(color).map((it) => (it / 255 <= 0.03928 ? it / 255 / 12.92 : ((it / 255 + 0.055) / 1.055) ** 2.4));
    return 0.2126 * r + 0.7152 * g + 0.0722 * b;
  };
  const painted = (color) => color.startsWith("rgb") && (parts(color).length === 3 || parts(color)[3] > 0);
  const behind = (element) => {
    for (let it = element; it; it = it.parentElement) {
      const color = getComputedStyle(it).backgroundColor;
      if (painted(color)) return color;
    }
    return "rgb(255, 255, 255)";
  };
  const mixed = (color, ground, part) => `rgb(${parts(color).slice(0, 3).map((it, n) => it * part + parts(ground)[n] * (1 - part)).join(", ")})`;
  const solid = (element) => (element ? Number(getComputedStyle(element).opacity) * solid(element.parentElement) : 1);
  const compare = (words, color, ground, part) => {
    const [a, b] = [light(mixed(color, ground, part)), light(ground)];
    const contrast = (Math.max(a, b) + 0.05) / (Math.min(a, b) + 0.05);
    if (contrast < 4.5) faults.add(`a contrast of ${contrast.toFixed(1)}: ${words}`);
  };
  for (const it of all("main *")) {
    if (it.closest("svg, .unseen") || ![...it.childNodes].some((node) => node.nodeType === 3 && node.data.trim())) continue;
    compare(begins(it), getComputedStyle(it).color, behind(it), solid(it));
  }
  for (const picture of all("svg.pic")) {
    if (!at(picture).width) continue;
    const boxes = all("rect", picture).map((it) => [at(it), getComputedStyle(it).fill]);
    for (const it of all("text", picture)) {
      const box = boxes.filter(([place]) => within(at(it), place, 0.5)).pop();
      compare(begins(it), getComputedStyle(it).fill, box ? box[1] : behind(picture), solid(it));
    }
  }

  const count = (selector) => all(selector).length;
  const counts = {
    pictures,
    refuted: count(".blocks li.refuted"), undecided: count(".blocks li.undecided"), proved: count(".blocks li.proved"),
    told: count(".story.refuted"), open: count(".story.undecided"), cells: count(".matrix tbody td"),
    steps: count(".steps tbody tr"), banner: (document.querySelector(".banner .counts") || {}).textContent || "",
  };
  parent.postMessage({ faults: [...faults], counts }, "*");
});
