// The tiles of a map on the page: position, path, pixels, and the words of the tint. A body of a function of the
// map's name and of what to call with them.
const [id, done] = arguments;
(async () => {
  const found = [];
  const layer = state.maps[id].tiles;
  for (const tile of Object.values(layer._tiles)) {
    const canvas = tile.el.querySelector('canvas');
    const data = canvas.getContext('2d', { willReadFrequently: true }).getImageData(0, 0, 256, 256).data;
    let text = '';
    for (let k = 0; k < data.length; k += 4) text += String.fromCharCode(data[k], data[k + 1], data[k + 2]);
    const { sequence } = layer.options;
    const path = queryOf(boxOf(tile.coords), 256, await namesAt(sequence), sequence);
    found.push({ ...tile.coords, x: tile.coords.x, y: tile.coords.y, z: tile.coords.z, path, rgb: btoa(text), by: tile.el.querySelector('.tint')?.textContent ?? null });
  }
  done(JSON.stringify(found));
})();
