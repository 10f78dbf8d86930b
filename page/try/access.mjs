// By keyboard, with a screen reader, on a phone's width, in light and dark.
import assert from 'node:assert/strict';

// The least contrast of a text with what is behind it, by the rule of WCAG 2.
const contrast = `(() => {
  const line = (part) => (part / 255 <= 0.03928 ? part / 255 / 12.92 : ((part / 255 + 0.055) / 1.055) ** 2.4);
  const light = (colour) => { const [r, g, b] = colour.match(/[\\d.]+/g).map(line); return 0.2126 * r + 0.7152 * g + 0.0722 * b; };
  const back = (each) => getComputedStyle(each).backgroundColor;
  const behind = (each) => (/, 0\\)|transparent/.test(back(each)) ? behind(each.parentElement) : back(each));
  const texts = document.querySelectorAll('h1, h2, p, td, th, th button, #tools button:not(:disabled), label');
  const ratio = (each) => {
    const [dark, bright] = [light(getComputedStyle(each).color), light(behind(each))].sort((one, two) => one - two);
    return (bright + 0.05) / (dark + 0.05);
  };
  return Math.min(...[...texts].filter((each) => each.offsetParent && each.textContent.trim()).map(ratio));
})()`;

export default ({ tab, chooseFile, toDisk, showItem, focus }) => ({
  async 'it goes by keyboard alone'() {
    await showItem('sample.mgt');
    await tab.evaluate(`document.getElementById('map').focus()`);
    await tab.key('ArrowRight');
    await tab.key('ArrowDown');
    assert.equal(await tab.evaluate(`document.getElementById('map').getAttribute('aria-valuetext')`), 'Track 1, sector 2: the directory');
    await tab.key('Enter', { text: '\r' });
    await tab.until('the sector is shown', async () => (await tab.text('#view-title')) === 'Track 1, sector 2');
    assert.equal(await focus(), 'map');
    const reached = [];
    for (let i = 0; i < 14; i++) {
      await tab.key('Tab');
      reached.push(await focus());
    }
    assert.deepEqual(reached, ['go-track', 'go-sector', '', 'list', 'sort slot', 'sort name', 'sort marks', 'sort kind', 'sort sectors', 'sort length', 'sort start', 'tick 1', 'name 1', 'tick 2']);
    await tab.key(' ', { text: ' ' });
    assert.equal(await tab.evaluate('document.activeElement.checked'), true);
    await tab.key('Tab');
    await tab.key('Enter', { text: '\r' });
    await tab.until('it is chosen', async () => (await tab.text('#file-title')) === 'TUNES');
    assert.equal(await focus(), 'name 2');
    await tab.key('Enter', { text: '\r' });
  },

  async 'every control has a name for a screen reader'() {
    const { nodes } = await tab.ask('Accessibility.getFullAXTree');
    const roles = ['button', 'checkbox', 'textbox', 'spinbutton', 'slider', 'combobox', 'region', 'columnheader', 'table', 'group', 'DisclosureTriangle'];
    const controls = nodes.filter((node) => !node.ignored && roles.includes(node.role?.value));
    assert.ok(controls.length > 40);
    for (const node of controls.filter(({ role }) => role.value !== 'group')) assert.ok(node.name?.value, JSON.stringify(node.role));
    for (const role of ['slider', 'table', 'checkbox', 'combobox', 'status', 'main', 'banner']) assert.ok(nodes.some((node) => node.role?.value === role), role);
  },

  async 'on a phone\'s width nothing is cut off, in light and dark'() {
    // The width, and the map drawn anew for it: the whole width, and no more.
    const narrowTo = async (width, height = 740) => {
      await tab.narrow(width, height);
      const mapWidth = () => tab.evaluate(`innerWidth === ${width} ? document.getElementById('map').getBoundingClientRect().right : null`);
      await tab.until(`it is drawn for ${width}`, async () => { const right = await mapWidth(); return right > 0.85 * width && right <= width; });
    };
    const backs = [];
    for (const value of ['light', 'dark']) {
      await tab.ask('Emulation.setEmulatedMedia', { features: [{ name: 'prefers-color-scheme', value }] });
      for (const width of [360, 320, 1000]) {
        await narrowTo(width);
        assert.ok((await tab.evaluate('document.documentElement.scrollWidth')) <= width, `at ${width}`);
      }
      assert.ok((await tab.evaluate(contrast)) >= 4.5, `contrast, ${value}: ${await tab.evaluate(contrast)}`);
      backs.push(await tab.evaluate('getComputedStyle(document.body).backgroundColor'));
    }
    assert.notEqual(backs[0], backs[1]);
    await narrowTo(360);
    // The map has two bands to a side here, and is worked by touch.
    const { left, top } = await tab.placeOf('#map');
    const cell = await tab.evaluate('document.getElementById("map").clientWidth / 40');
    const place = { x: left + 4.5 * cell, y: top + 1.5 * cell };
    await tab.ask('Input.dispatchTouchEvent', { type: 'touchStart', touchPoints: [place] });
    await tab.ask('Input.dispatchTouchEvent', { type: 'touchEnd', touchPoints: [] });
    await tab.until('the sector is shown', async () => (await tab.text('#view-title')) === 'Track 4, sector 2');
    await chooseFile('AUTO');
    await tab.click('#file-tools button', 'Hide');
    await tab.says('AUTO is hidden');
    await toDisk('undo');
    await tab.says('Undone: hide AUTO');
    await tab.ask('Emulation.setEmulatedMedia', { features: [] });
    await narrowTo(1000, 900);
  },
});
