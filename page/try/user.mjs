// What a user of the page does and sees, by the names of files and disks.

export function userOf(tab) {
  const chooseFile = async (name) => {
    await tab.click('#list tbody button', name);
    await tab.until(`${name} is chosen`, async () => (await tab.text('#file-title')) === name);
  };
  const onFile = async (name, button) => {
    await chooseFile(name);
    await tab.click('#file-tools button', button);
  };
  const toDisk = (button) => tab.click(`#tools button[data-key="${button}"]`);
  const showItem = async (label) => {
    await tab.click('#items button', label);
    await tab.until(`${label} is shown`, async () => (await tab.text('#title')) === label);
  };
  const rows = () => tab.evaluate(`[...document.querySelectorAll('#list tbody tr')].map((row) => [...row.cells].slice(1).map((cell) => cell.textContent))`);
  const names = async () => (await rows()).map((row) => row[1]);
  const view = () => tab.text('#bytes pre');
  const focus = () => tab.evaluate('document.activeElement.dataset.key ?? document.activeElement.id');
  const openImages = () => tab.evaluate(`[...document.querySelectorAll('#items li')].map((line) => [line.children[0].textContent, line.children[1].textContent])`);
  // The middle of a sector of the map, side by side as it is drawn on a wide page.
  const onMap = async (track, sector) => {
    const { left, top } = await tab.placeOf('#map');
    const cell = await tab.evaluate('document.getElementById("map").clientWidth / 80');
    return { x: left + ((track % 128) + 0.5) * cell, y: top + (track < 128 ? 0 : 10 * cell + 8) + (sector - 0.5) * cell };
  };
  const colourAt = async ({ x, y }) => tab.evaluate(`(() => {
    const map = document.getElementById('map');
    const box = map.getBoundingClientRect();
    return [...map.getContext('2d').getImageData(${x} - box.left, ${y} - box.top, 1, 1).data].join();
  })()`);
  return { chooseFile, onFile, toDisk, showItem, rows, names, view, focus, openImages, onMap, colourAt };
}
