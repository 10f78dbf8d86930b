// What the page shows, in one place. It is drawn from this anew after everything that is done.

export const state = {
  library: null,
  items: [],
  item: null, // the one that is shown
  slot: null, // the chosen file's
  hover: null, // the slot of the file that is pointed at
  sector: 0, // where the map's cursor is
  ticked: new Set(), // slots
  sort: { by: 'slot', down: false },
  downloaded: new Set(), // names of disks that were downloaded
};

export const entries = () => state.item?.disk?.listing.entries ?? [];
export const chosenEntry = () => entries().find((entry) => entry.slot === state.slot) ?? null;
export const tickedEntries = () => entries().filter((entry) => state.ticked.has(entry.slot));
