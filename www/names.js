// Names that fields propose: from this browser's acts, the lanes, and the list where there is one.

import { keep, readKept } from "./store.js";
import { list } from "./office.js";

const KEPT = "hall.names";
const MOST = 50;

export function names() {
  const kept = readKept(KEPT, {});
  const only = (kind) => (Array.isArray(kept[kind]) ? kept[kind] : [])
    .filter((name) => typeof name === "string");
  return { batches: only("batches"), products: only("products") };
}

export function addNames(kind, added) {
  const kept = names();
  const fresh = added.filter((name) => name && !kept[kind].includes(name));
  if (fresh.length === 0) return;
  kept[kind] = [...fresh, ...kept[kind]].slice(0, MOST);
  keep(KEPT, kept);
}

export async function addListed() {
  const listed = await list();
  addNames("batches", listed.batches.map(({ batch }) => batch));
  addNames("products", listed.products);
  return listed;
}
