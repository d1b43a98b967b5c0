// An office that is reckoned in the page itself, so that a board's hour is over in a minute and a
// batch of ten thousand packs is read at once: what is measured then is the page alone.
// tests/screen_load.py has the browser run it before each page. Packs are functions of their
// number; `hallClock` moves the time, and with it the rows of the book.

window.hallClock = (() => {
  const LANES = 16;
  const A_SECOND = 20;
  const MOST = 10_000;
  const [BIG, BIG_FIRST] = ["BIG", 1];
  const state = { seconds: 0, asked: 0, last: 0 };
  const realNow = Date.now.bind(Date);
  const realFetch = window.fetch.bind(window);
  Date.now = () => realNow() + state.seconds * 1000;

  const rows = () => MOST + Math.floor(state.seconds * LANES * A_SECOND);
  const spell = (milligrams) =>
    `${Math.floor(milligrams / 1000)}.${String(milligrams % 1000).padStart(3, "0")}`;
  // the first rows are the large batch; the lanes follow, each with a new batch when one is full
  const laneOf = (number) => (number - MOST - 1) % LANES + 1;
  const placeOf = (number) => Math.floor((number - MOST - 1) / LANES);
  const batchAt = (lane, place) => `LANE-${lane}-${Math.floor(place / MOST)}`;
  const netOf = (number) => {
    if (number % 997 === 5) return 231_000;
    if (number % 83 === 7) return 240_500;
    return 250_500 + (number * 7919) % 5_000;
  };

  function packText(number) {
    const net = netOf(number);
    const isBig = number <= MOST;
    const lane = isBig ? 1 : laneOf(number);
    const batch = isBig ? BIG : batchAt(lane, placeOf(number));
    const kind = net < 232_000 ? "inadequate" : net < 241_000 ? "nonstandard" : "standard";
    const end = kind === "inadequate" ? "reject inadequate rejected" : "pass passed";
    return `pack ${number} batch ${batch} lane ${lane} gross ${spell(net + 10_000)}`
      + ` net ${spell(net)} ${kind} ${end}\n`;
  }

  // The signal of a pack, as its act has it.
  const signalOf = (number) => (netOf(number) < 232_000 ? "reject inadequate" : "pass");

  // A row as its act: a pack, or where a lane begins another batch its start in that pack's place.
  function actText(number) {
    const lane = number <= MOST ? 1 : laneOf(number);
    const isStart = number > MOST && placeOf(number) % MOST === 0;
    const [told, act] = isStart ? ["done", `start ${lane} ${batchAt(lane, placeOf(number))}`]
      : [signalOf(number), `weigh ${lane} ${spell(netOf(number) + 10_000)} opened`];
    return `${number} ${told}\t2025-03-03\t${act}\n`;
  }

  // The acts behind a row, a page of them.
  function actsText(after) {
    const many = Math.min(128, Math.max(0, rows() - after));
    return Array.from({ length: many }, (_, at) => actText(after + at + 1)).join("");
  }

  // What the packs of a batch come to: one in 997 is rejected, one in 83 is light.
  const sums = new Map();
  function sumsOf(batch, first, count, apart) {
    const known = sums.get(batch) ?? { count: 0, passed: 0, net: 0, light: 0 };
    for (; known.count < count; known.count += 1) {
      const net = netOf(first + known.count * apart);
      if (net < 232_000) continue;
      known.passed += 1;
      known.net += net;
      known.light += net < 241_000 ? 1 : 0;
    }
    sums.set(batch, known);
    return known;
  }

  function sheetText(batch) {
    const [, lane, turn] = batch.split("-").map(Number);
    const isBig = batch === BIG;
    const all = isBig ? MOST : Math.min(MOST, placeOf(rows()) - turn * MOST);
    const first = isBig ? BIG_FIRST : MOST + turn * MOST * LANES + lane;
    const { count, passed, net, light } = sumsOf(batch, first, all, isBig ? 1 : LANES);
    return `batch ${batch} product rice250 nominal 250.000 tne 9.000\nstate running\n`
      + `readings ${count}\n`
      + `passed ${passed}\nrejected ${count - passed}\nsampled 0\nvoided 0\n`
      + `population ${passed} net ${spell(net)} nonstandard ${light} inadequate 0\nheld no\n`;
  }

  // The readings of a batch behind a number, at most as many as an office gives at once.
  function pageText(batch, after) {
    const isBig = batch === BIG;
    const [, lane, turn] = batch.split("-").map(Number);
    const [first, apart] = isBig ? [BIG_FIRST, 1] : [MOST + turn * MOST * LANES + lane, LANES];
    const last = isBig ? MOST : Math.min(rows(), first + (MOST - 1) * LANES);
    const gone = Math.max(0, Math.floor((after - first) / apart) + 1);
    const numbers = Array.from({ length: 128 }, (_, at) => first + (gone + at) * apart);
    return numbers.filter((number) => number <= last).map(packText).join("");
  }

  function answer(path) {
    const [kind, name, part, after] = path.split("/");
    if (part === "packs") return pageText(name, Number(after));
    if (kind === "summary") return `rows ${rows()}\n`;
    if (kind === "acts") return actsText(Number(name));
    if (kind === "packs") return packText(Number(name));
    if (kind === "batches") return sheetText(name);
    const batch = batchAt(Number(name), placeOf(rows()));
    return `lane ${name} batch ${batch} unsettled ${rows()}\n`;
  }

  window.fetch = async (address, options) => {
    const { pathname } = new URL(address, location.href);
    if (!pathname.startsWith("/hall/")) return realFetch(address, options);
    state.asked += 1;
    const text = answer(pathname.slice("/hall/".length));
    state.last = performance.now();
    return new Response(text, { status: 200, headers: { "Book-Row": String(rows()) } });
  };

  // The next paint is over.
  const drawn = () => new Promise((go) => requestAnimationFrame(() => requestAnimationFrame(go)));

  // Goes on by so many seconds, refreshing the board at each two of them.
  async function goOn(seconds) {
    const board = await import("./board.js");
    for (let gone = 0; gone < seconds; gone += 2) {
      state.seconds += 2;
      await board.refresh();
    }
    await drawn();
  }

  // From the last answer of the office to the figure on the screen.
  function whenDrawn(selector) {
    return new Promise((tell) => {
      const look = async () => {
        if (!document.querySelector(selector)) return void requestAnimationFrame(look);
        const last = state.last;
        await drawn();
        tell(performance.now() - last);
      };
      look();
    });
  }

  return { state, rows, drawn, goOn, whenDrawn };
})();
