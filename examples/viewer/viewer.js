// A map of the farm at this page's own address, or of any WMS 1.3.0: tiles on the map's grid, drawn as they come onto canvases.
'use strict';

const TILE = 256; // pixels of a tile's side
const EVERY = 3000; // milliseconds between two questions for news
const PIXMAP = 'image/x-portable-pixmap';
const SYSTEMS = ['EPSG:3857', 'CRS:84', 'EPSG:4326'];
const EARTH = 6378137; // metres, the radius of the sphere of EPSG:3857
const TRIES = 3; // of a tile at whose side others connected
const CALM = 3; // answers of /status in turn, before a tile and after it
const byId = (id) => document.getElementById(id);

// The server: the farm at this page's address; with ?nodes=A,B,C one whose nodes have an address each, in the order of their numbers;
// with ?wms=ADDRESS another WMS, which has no history and no nodes.
const words = new URLSearchParams(location.search);
const other = words.get('wms');
const server = { address: other || 'wms', isFarm: !other, nodes: (words.get('nodes') || '').split(',').filter(Boolean) };
const hasAddresses = server.nodes.length > 0;

const state = {
  sequence: null, // the last one that is published, where the server has any
  text: null, // the capabilities document
  map: null, // what it says: title, layers, formats, and systems with their extents, x first
  chosen: new Set(), // names of layers
  seen: new Map(), // the layers of each sequence that this page saw as the last one
  found: new Map(), // for other sequences: which of the layers they have
  nodes: new Map(), // by number: the line of /status, its sequence, and how many looks missed the node
  awaited: null, // the sequence for which a map of this page's was accepted
  maps: {}, // the one or two maps on the page, each with its layers of tiles
};

// ---- sentences

class Silence extends Error {}
class Rejection extends Error {
  constructor(words, code) {
    super(words);
    this.code = code;
  }
}

const problems = new Map();

// Says a sentence about a part of the page in place of the one before, or nothing any more.
function say(about, sentence) {
  problems.delete(about);
  if (sentence) problems.set(about, sentence);
  byId('message').textContent = [...new Set(problems.values())].join(' ');
}

const wordsOf = (error) => (error instanceof Silence ? `The ${server.isFarm ? 'farm' : 'server'} does not answer.` : error.message);

// ---- requests

// A path at a node that has an address of its own, and at the server otherwise.
const pathAt = (node, path) => (hasAddresses ? `${server.nodes[node].replace(/\/$/, '')}/${path}` : path);

// A picture of a sequence never changes, so the browser may keep it; all else is asked anew.
const cacheFor = (path) => (/[?&]MAPSEQ=[1-9]/.test(path) ? 'default' : 'no-store');

async function ask(path, more = {}) {
  let answer;
  try {
    answer = await fetch(path, { cache: cacheFor(path), ...more });
    return { status: answer.status, bytes: new Uint8Array(await answer.arrayBuffer()) };
  } catch (error) {
    throw error.name === 'AbortError' ? error : new Silence();
  }
}

// What came with status 200; 502 and 504 are a proxy's words for a server that doesn't answer.
async function get(path, signal) {
  const { status, bytes } = await ask(path, { signal });
  if (status === 502 || status === 504) throw new Silence();
  if (status === 503) throw new Rejection('The farm ran out of memory for an answer (503).');
  if (status !== 200) throw new Rejection(`The server answered ${status}.`);
  return bytes;
}

const textOf = (bytes) => new TextDecoder().decode(bytes);

function addressOf(query) {
  const between = !server.address.includes('?') ? '?' : /[?&]$/.test(server.address) ? '' : '&';
  return server.address + between + new URLSearchParams(query);
}

// What a service exception says, or any answer that is no picture.
function rejectionOf(text) {
  const found = new DOMParser().parseFromString(text, 'text/xml').querySelector('ServiceException');
  if (!found) return new Rejection('The server gave no picture.');
  return new Rejection(`The server says: ${found.textContent.trim()}.`, found.getAttribute('code'));
}

// The pixels of an uncompressed pixmap (Netpbm P6, a byte a colour).
function pixmap(bytes, head) {
  const [width, height, start] = [Number(head[1]), Number(head[2]), head[0].length];
  if (bytes.length < start + 3 * width * height) throw new Rejection('A picture was cut short.');
  const image = new ImageData(width, height);
  for (let from = start, to = 0; to < image.data.length; from += 3, to += 4) {
    image.data[to] = bytes[from];
    image.data[to + 1] = bytes[from + 1];
    image.data[to + 2] = bytes[from + 2];
    image.data[to + 3] = 255;
  }
  return image;
}

const HEAD = /^P6(?:\s|#[^\n]*\n)+(\d+)(?:\s|#[^\n]*\n)+(\d+)(?:\s|#[^\n]*\n)+255\s/;

// Paints an answer, a pixmap or a PNG, onto a canvas.
async function paint(bytes, canvas) {
  const context = canvas.getContext('2d', { willReadFrequently: true }); // (pixels come as bytes, and stay in memory)
  const head = HEAD.exec(new TextDecoder('latin1').decode(bytes.subarray(0, 256)));
  if (head) {
    context.putImageData(pixmap(bytes, head), 0, 0);
  } else if (bytes[0] === 0x89 && bytes[1] === 0x50) {
    context.drawImage(await createImageBitmap(new Blob([bytes], { type: 'image/png' })), 0, 0);
  } else {
    throw rejectionOf(textOf(bytes));
  }
}

// ---- capabilities

const mercator = (longitude, latitude) => [
  longitude * EARTH * Math.PI / 180,
  EARTH * Math.log(Math.tan(Math.PI / 4 + Math.max(-85, Math.min(85, latitude)) * Math.PI / 360)),
];

// The extent of a layer in a system, x first: its own box, or that of its degrees.
function extentOf(top, crs) {
  const box = [...top.querySelectorAll('BoundingBox')].find((it) => it.getAttribute('CRS') === crs);
  if (box) {
    const [a, b, c, d] = ['minx', 'miny', 'maxx', 'maxy'].map((it) => Number(box.getAttribute(it)));
    return crs === 'EPSG:4326' ? [b, a, d, c] : [a, b, c, d];
  }
  const degrees = ['westBoundLongitude', 'southBoundLatitude', 'eastBoundLongitude', 'northBoundLatitude']
    .map((it) => top.querySelector(`EX_GeographicBoundingBox > ${it}`));
  if (degrees.includes(null)) return null;
  const [west, south, east, north] = degrees.map((it) => Number(it.textContent));
  return crs === 'EPSG:3857' ? [...mercator(west, south), ...mercator(east, north)] : [west, south, east, north];
}

// What a capabilities document says of the map.
function readCapabilities(text) {
  const found = new DOMParser().parseFromString(text, 'text/xml');
  const top = found.querySelector('WMS_Capabilities > Capability > Layer');
  if (!top) throw new Rejection('The server answers, but with no WMS 1.3.0 capabilities that hold a layer.');
  const offered = new Set([...found.querySelectorAll('Capability CRS')].flatMap((it) => it.textContent.trim().split(/\s+/)));
  const childOf = (layer, name) => [...layer.children].find((it) => it.localName === name)?.textContent.trim();
  const layers = [top, ...top.querySelectorAll('Layer')]
    .filter((it) => childOf(it, 'Name') && ![...it.children].some((child) => child.localName === 'Layer'))
    .map((it) => ({ name: childOf(it, 'Name'), title: childOf(it, 'Title') || childOf(it, 'Name') }));
  const formats = [...found.querySelectorAll('GetMap > Format')].map((it) => it.textContent.trim());
  const sequence = found.documentElement.getAttribute('updateSequence');
  return {
    sequence: /^\d+$/.test(sequence) ? Number(sequence) : null,
    title: childOf(top, 'Title') || 'wfarm',
    layers,
    systems: new Map(SYSTEMS.filter((it) => offered.has(it)).map((it) => [it, extentOf(top, it)]).filter((it) => it[1])),
    formats: [...formats.filter((it) => it === PIXMAP), ...formats.filter((it) => /^image\/png\b/.test(it))],
  };
}

const crs = () => byId('crs').value;
const extent = () => state.map.systems.get(crs());

// ---- the grid: level z cuts the extent's width into 2^z cells; columns and rows count from its lower left corner

function boxOf(coords) {
  const [minx, miny, maxx] = extent();
  const side = (maxx - minx) / 2 ** coords.z;
  const row = 2 ** coords.z - 1 - coords.y;
  const box = [minx + coords.x * side, miny + row * side, minx + (coords.x + 1) * side, miny + (row + 1) * side];
  return crs() === 'EPSG:4326' ? [box[1], box[0], box[3], box[2]] : box;
}

// The finest level: a cell is at least a thousandth of a unit wide, and levels end at 20.
function finest() {
  const [minx, , maxx] = extent();
  return Math.max(0, Math.min(20, Math.floor(Math.log2((maxx - minx) * 1000))));
}

// Plain coordinates, the corner of the top row at the origin of the pixels: so Leaflet's tiles are the grid's.
function plainCrs() {
  const [minx, miny, maxx] = extent();
  const wide = maxx - minx;
  return L.extend({}, L.CRS.Simple, {
    transformation: new L.Transformation(1 / wide, -minx / wide, -1 / wide, (miny + wide) / wide),
    scale: (zoom) => TILE * 2 ** zoom,
    zoom: (scale) => Math.log2(scale / TILE),
    infinite: true,
  });
}

function queryOf(box, side, names, sequence) {
  const query = {
    SERVICE: 'WMS', VERSION: '1.3.0', REQUEST: 'GetMap', LAYERS: names.join(','), STYLES: names.map(() => '').join(','), CRS: crs(),
    BBOX: box.map((it) => it.toFixed(6)).join(','), WIDTH: side, HEIGHT: side, FORMAT: byId('format').value,
  };
  return addressOf(sequence ? { ...query, MAPSEQ: sequence } : query);
}

// Which layers a sequence has: capabilities are those of the last one alone, so of an older one each name is tried.
async function layersAt(sequence) {
  const names = state.map.layers.map((it) => it.name);
  if (!sequence || sequence === state.sequence) return names;
  if (state.seen.has(sequence)) return state.seen.get(sequence);
  if (!state.found.has(sequence)) {
    const [minx, miny, maxx, maxy] = extent();
    const box = crs() === 'EPSG:4326' ? [miny, minx, maxy, maxx] : [minx, miny, maxx, maxy];
    state.found.set(sequence, Promise.all(names.map(async (name) => {
      const text = textOf(await askAny(queryOf(box, 1, [name], sequence)));
      return text.startsWith('P6') || rejectionOf(text).code !== 'LayerNotDefined';
    })).then((there) => names.filter((_, k) => there[k])).catch((error) => {
      state.found.delete(sequence);
      throw error;
    }));
  }
  return state.found.get(sequence);
}

// The layers to draw: those chosen, and those of an older map that the last one doesn't have.
async function namesAt(sequence) {
  const now = new Set(state.map.layers.map((it) => it.name));
  return (await layersAt(sequence)).filter((it) => state.chosen.has(it) || !now.has(it));
}

// ---- one request after the other, so that it is known which node answers each

let queue = Promise.resolve();

function alone(job) {
  const mine = queue.then(job);
  queue = mine.catch(() => {});
  return mine;
}

async function statusOf(path, signal) {
  const line = textOf(await get(path, signal)).trim();
  const found = /^node (\d+) published (\d+) proposal (.*)$/.exec(line);
  if (!found) throw new Rejection('The server says no status of a farm.');
  return { line, node: Number(found[1]), sequence: Number(found[2]), proposal: found[3] };
}

// Node c mod n answers connection c. So while nobody else connects, the nodes answer this page in turn, and the node of each answer is
// known. Others show as an answer out of turn, unless n of them, or a multiple, came between two of this page's requests.
const turn = { next: 0, calm: 0 };

// The numbers of the nodes that answer, in order. (A farm that began again with fewer nodes leaves some that don't.)
const nodesHere = () => [...state.nodes].filter(([, it]) => it.missed < 2).map(([id]) => id).sort((a, b) => a - b);

// Asks for /status: one more answer in turn, or the first one.
async function hearTurn(signal) {
  const { node } = await statusOf('status', signal);
  turn.calm = node === turn.next ? turn.calm + 1 : 0;
  turn.next = (node + 1) % nodesHere().length;
  return turn.calm > 0;
}

// Waits for a node's turn, after enough answers in turn: or not, where others don't let it come.
async function awaitTurn(wanted, signal) {
  for (let left = 2 * (nodesHere().length + CALM); left > 0; left -= 1) {
    if (turn.calm >= CALM && turn.next === wanted) return true;
    await hearTurn(signal);
  }
  return false;
}

// Asks the node at its own address, and where it doesn't answer the next one that does: the bytes, and who gave them.
async function askAddress(wanted, path, signal) {
  const others = nodesHere().filter((it) => it !== wanted);
  for (const node of [wanted, ...others]) {
    try {
      return { bytes: await get(pathAt(node, path), signal), node };
    } catch (error) {
      if (!(error instanceof Silence)) throw error;
      missNode(node);
    }
  }
  throw new Silence();
}

// What any node answers: the first that does, those first that published the most.
async function askAny(path, signal) {
  if (!hasAddresses) return get(path, signal);
  const all = nodesHere().sort((a, b) => state.nodes.get(b).sequence - state.nodes.get(a).sequence);
  return (await askAddress(all.length ? all[0] : 0, path, signal)).bytes;
}

// Asks a node, and says which one answered: null where that isn't known.
async function askNode(wanted, path, signal) {
  if (hasAddresses) return askAddress(wanted, path, signal);
  let bytes = null;
  for (let tries = 0; tries < TRIES; tries += 1) {
    let isSure = await awaitTurn(wanted, signal);
    bytes = await get(path, signal);
    turn.next = (turn.next + 1) % nodesHere().length;
    for (let k = 0; k < CALM && isSure; k += 1) isSure = await hearTurn(signal);
    if (isSure) return { bytes, node: wanted };
    turn.calm = 0;
  }
  return { bytes, node: null };
}

const tints = () => server.isFarm && byId('tint').checked && nodesHere().length > 0;

// The node that a tile is asked of, one that isn't behind: another one than its neighbours above, below and beside.
function nodeFor(coords, sequence) {
  const all = nodesHere();
  const able = all.filter((it) => state.nodes.get(it).sequence >= sequence);
  const nodes = able.length ? able : all;
  const index = (coords.x + coords.y) % nodes.length;
  return nodes[index < 0 ? index + nodes.length : index];
}

const colorOf = (node) => `hsl(${Math.round(360 * node / Math.max(3, state.nodes.size)) % 360} 90% 50% / .28)`;

function tintTile(tile, node) {
  const tint = L.DomUtil.create('div', node === null ? 'tint unknown' : 'tint', tile);
  tint.textContent = node === null ? '?' : `node ${node}`;
  if (node !== null) tint.style.background = colorOf(node);
}

// ---- tiles

const isBehind = (bytes) => textOf(bytes.subarray(0, 1024)).includes('map sequence is not published here');

// Asks for a picture; a node that is behind doesn't have the sequence yet, and then the next one is asked.
async function fetchTile(path, signal) {
  for (let left = nodesHere().length; ; left -= 1) {
    const bytes = await askAny(path, signal);
    if (left < 1 || !isBehind(bytes)) return bytes;
  }
}

async function drawTile(tile, canvas, coords, sequence, signal) {
  const names = await namesAt(sequence);
  if (!names.length) {
    if (state.chosen.size) throw new Rejection(`Sequence ${sequence} has none of these layers.`);
    return;
  }
  const path = queryOf(boxOf(coords), TILE, names, sequence);
  if (tints()) {
    const job = () => (signal.aborted ? { bytes: null } : askNode(nodeFor(coords, sequence), path, signal));
    const { bytes, node } = await (hasAddresses ? job() : alone(job));
    if (bytes === null) return;
    const late = isBehind(bytes);
    await paint(late ? await fetchTile(path, signal) : bytes, canvas);
    tintTile(tile, late ? null : node);
  } else {
    await paint(await fetchTile(path, signal), canvas);
  }
}

const stops = new WeakMap();

const Tiles = L.GridLayer.extend({
  createTile(coords, done) {
    const tile = L.DomUtil.create('div', 'tile');
    const canvas = L.DomUtil.create('canvas', '', tile);
    canvas.width = canvas.height = TILE;
    const stop = new AbortController();
    stops.set(tile, stop);
    const { id, sequence } = this.options;
    drawTile(tile, canvas, coords, sequence, stop.signal).then(() => done(null, tile), (error) => {
      if (error.name !== 'AbortError' && state.maps[id]?.tiles === this) say(id, wordsOf(error));
      done(error, tile);
    });
    return tile;
  },
});

// Draws a map's tiles anew; the old ones stay until the new ones are there.
function draw(id, sequence) {
  const [minx, miny, maxx, maxy] = extent();
  if (!state.maps[id]) {
    const map = L.map(id, { crs: plainCrs(), minZoom: 0, maxZoom: finest(), attributionControl: false });
    map.fitBounds([[miny, minx], [maxy, maxx]]);
    state.maps[id] = { map, tiles: null, old: [] };
  }
  const it = state.maps[id];
  const tiles = new Tiles({ id, sequence, tileSize: TILE, noWrap: true, maxZoom: finest() });
  const old = it.tiles ? [...it.old, it.tiles] : [];
  Object.assign(it, { tiles, old });
  say(id);
  tiles.on('tileunload', (event) => stops.get(event.tile)?.abort());
  tiles.once('load', () => {
    old.forEach((layer) => layer.remove());
    if (it.tiles === tiles) it.old = [];
  });
  tiles.addTo(it.map);
}

function forget(...ids) {
  for (const id of ids) {
    state.maps[id]?.map.remove();
    delete state.maps[id];
    say(id);
  }
}

let following = false;

// Moves the other map with one, where both are there.
function follow(id, otherId) {
  state.maps[id].map.on('move', () => {
    const [one, beside] = [state.maps[id], state.maps[otherId]];
    if (!one || !beside || following) return;
    following = true;
    beside.map.setView(one.map.getCenter(), one.map.getZoom(), { animate: false });
    following = false;
  });
}

function redraw() {
  if (!state.map || !extent() || !state.map.layers.length || state.sequence === 0) {
    forget('left', 'right');
    return;
  }
  const shown = state.sequence && Number(byId('sequence').value);
  const compares = Boolean(shown) && byId('compare').checked;
  byId('right').hidden = !compares;
  if (!compares) forget('right');
  const isFirst = !state.maps.left;
  state.maps.left?.map.invalidateSize();
  draw('left', shown);
  if (isFirst) follow('left', 'right');
  if (compares) {
    const isNew = !state.maps.right;
    draw('right', Number(byId('other').value));
    if (isNew) follow('right', 'left');
    state.maps.right.map.setView(state.maps.left.map.getCenter(), state.maps.left.map.getZoom(), { animate: false });
  }
  if (isFirst) {
    state.maps.left.map.on('moveend', sayWhatIsShown);
    showLinked();
  }
  sayWhatIsShown();
}

// The numbers on the two maps, where both are there, and the address of what is shown.
function sayWhatIsShown() {
  const compares = !byId('right').hidden;
  for (const [id, input] of [['left', 'sequence'], ['right', 'other']]) {
    byId(`${id}-number`).hidden = !compares;
    byId(`${id}-number`).textContent = `sequence ${byId(input).value}`;
  }
  const map = state.maps.left?.map;
  if (!map) return;
  const { lng, lat } = map.getCenter();
  const view = { s: byId('sequence').value, x: lng.toFixed(6), y: lat.toFixed(6), z: map.getZoom(), ...(compares ? { beside: byId('other').value } : {}) };
  byId('link').href = `${location.pathname}${location.search}#${new URLSearchParams(view)}`;
}

// Shows what the page's address says after '#', once the map is there.
function showLinked() {
  const view = new URLSearchParams(location.hash.slice(1));
  if (!view.has('s') || !state.maps.left) return;
  history.replaceState(null, '', location.pathname + location.search);
  byId('sequence').value = view.get('s');
  byId('compare').checked = view.has('beside');
  if (view.has('beside')) byId('other').value = view.get('beside');
  sayNumbers();
  state.maps.left.map.setView([Number(view.get('y')), Number(view.get('x'))], Number(view.get('z')), { animate: false });
  redraw();
}

function sayNumbers() {
  byId('shown').textContent = `${byId('sequence').value} of ${state.sequence}`;
  byId('beside').textContent = byId('other').value;
}

// ---- the lists on the page

function listLayers() {
  byId('layers').replaceChildren(...state.map.layers.map((layer) => {
    const label = document.createElement('label');
    const box = document.createElement('input');
    box.type = 'checkbox';
    box.checked = state.chosen.has(layer.name);
    box.addEventListener('change', () => {
      box.checked ? state.chosen.add(layer.name) : state.chosen.delete(layer.name);
      redraw();
    });
    label.append(box, ` ${layer.title}`);
    return label;
  }));
}

// The choices of a list; the one that was chosen stays where it is still offered.
function listChoices(id, choices) {
  const chosen = byId(id).value;
  byId(id).replaceChildren(...choices.map((it) => new Option(it, it, false, it === chosen)));
  byId(id).disabled = choices.length < 2;
}

const mostPublished = () => Math.max(0, ...nodesHere().map((it) => state.nodes.get(it).sequence));

const sinceWords = (node) => (node.seen ? ` since ${new Date(node.seen).toLocaleTimeString()}` : '');

// A node that doesn't answer: its line stays, grey, with the time of its last answer.
function missNode(id) {
  const it = state.nodes.get(id) || { line: `node ${id}`, node: id, sequence: 0, proposal: 'none', missed: 0 };
  state.nodes.set(id, { ...it, missed: it.missed + 2 });
  listNodes();
}

function listNodes() {
  const most = mostPublished();
  byId('nodes').replaceChildren(...[...state.nodes].sort((a, b) => a[0] - b[0]).map(([id, node]) => {
    const item = document.createElement('li');
    const swatch = L.DomUtil.create('span', 'swatch', item);
    swatch.style.background = colorOf(id);
    const isGone = node.missed > 1;
    item.append(` ${node.line}${isGone ? ` (gone${sinceWords(node)})` : node.sequence < most ? ' (behind)' : ''}`);
    item.className = isGone ? 'gone' : node.sequence < most ? 'behind' : '';
    return item;
  }));
}

// ---- news

function sayOfMap() {
  const { map } = state;
  const wide = extent() && extent()[2] - extent()[0];
  const high = extent() && extent()[3] - extent()[1];
  say('map', state.sequence === 0 ? 'Nothing is published yet.' : !map.layers.length ? 'This map has no layers.'
    : !map.formats.length ? 'This server offers neither pixmaps nor PNG.'
      : !extent() ? 'This server offers none of EPSG:3857, CRS:84 and EPSG:4326.' : '');
  byId('note').textContent = !wide || Math.abs(high / wide - 1) < 1e-6 ? ''
    : `The map's extent isn't square, it is ${(high / wide).toFixed(2)} times as high as wide. Tiles are squares, and level 0 is as wide as the extent.`;
}

function take(text) {
  const map = readCapabilities(text);
  const was = state.map && JSON.stringify([...state.map.systems]);
  const wasLast = state.sequence === null || Number(byId('sequence').value) === state.sequence;
  map.layers.filter((it) => !state.map?.layers.some((old) => old.name === it.name)).forEach((it) => state.chosen.add(it.name));
  Object.assign(state, { map, text, sequence: map.sequence });
  state.found.clear();
  if (map.sequence) state.seen.set(map.sequence, map.layers.map((it) => it.name));
  document.title = byId('title').textContent = map.title;
  const hasHistory = server.isFarm && map.sequence !== null;
  if (!server.isFarm) state.sequence = null;
  byId('history').hidden = !hasHistory;
  for (const id of ['sequence', 'other']) byId(id).max = Math.max(1, map.sequence);
  if (wasLast) byId('sequence').value = map.sequence;
  sayNumbers();
  listChoices('crs', [...map.systems.keys()]);
  listChoices('format', map.formats);
  listLayers();
  if (was !== JSON.stringify([...map.systems])) forget('left', 'right');
  sayOfMap();
  redraw();
}

// A farm that begins again, at a lower sequence than this page has seen, is another farm.
function beginAgain() {
  state.sequence = null;
  state.seen.clear();
  state.found.clear();
  state.map = null;
  forget('left', 'right');
}

// Asks for the capabilities with the sequence that the page has: the exception CurrentUpdateSequence means that nothing is new.
async function lookForNews() {
  const query = { SERVICE: 'WMS', VERSION: '1.3.0', REQUEST: 'GetCapabilities' };
  const text = textOf(await askAny(addressOf(state.sequence === null ? query : { ...query, UPDATESEQUENCE: state.sequence })));
  const exception = new DOMParser().parseFromString(text, 'text/xml').querySelector('ServiceException');
  if (!exception) {
    if (text !== state.text || !state.map) take(text);
    return;
  }
  const code = exception.getAttribute('code');
  // (a node that is behind says that our sequence isn't valid; so does each node of a farm that began again)
  if (code === 'InvalidUpdateSequence') {
    if (nodesHere().length && mostPublished() < state.sequence) beginAgain();
  } else if (code !== 'CurrentUpdateSequence') {
    throw rejectionOf(text);
  }
}

// Each connection goes to the farm's next node, tiles' too. So nodes are asked until each known one has answered and none has been new.
async function lookAtAddresses() {
  await Promise.all(server.nodes.map(async (_, id) => {
    try {
      const it = await statusOf(pathAt(id, 'status'));
      if (it.node !== id) throw new Rejection(`Address ${id} is node ${it.node}.`);
      state.nodes.set(id, { ...it, missed: 0, seen: Date.now() });
    } catch (error) {
      if (!(error instanceof Silence)) throw error;
      missNode(id);
    }
  }));
  listNodes();
  if (nodesHere().length) sayPublished();
}

async function lookAtNodes() {
  if (hasAddresses) return lookAtAddresses();
  const came = new Set();
  let fresh = state.nodes.size === 0;
  const isDone = (old, asked) => (fresh ? old > 4 + came.size : old > 0 && nodesHere().every((it) => came.has(it)))
    || asked > 4 + 4 * Math.max(came.size, state.nodes.size);
  for (let old = 0, asked = 0; !isDone(old, asked); asked += 1) {
    const it = await statusOf('status');
    old = came.has(it.node) ? old + 1 : 0;
    fresh ||= !state.nodes.has(it.node);
    came.add(it.node);
    state.nodes.set(it.node, { ...it, missed: 0 });
  }
  for (const [id, it] of state.nodes) {
    if (!came.has(id)) it.missed += 1;
    if (it.missed > 9) state.nodes.delete(id);
  }
  listNodes();
  sayPublished();
}

async function look() {
  if (!document.hidden) {
    try {
      if (server.isFarm) await alone(lookAtNodes);
      await alone(lookForNews);
      const wasSilent = problems.has('server');
      say('server');
      if (wasSilent) redraw();
    } catch (error) {
      say('server', wordsOf(error));
    }
  }
  setTimeout(look, server.isFarm ? EVERY : 10 * EVERY);
}

// ---- publishing

const MEANINGS = {
  M1: 'allocation failed', M2: 'it has over 131,072 bytes', M3: "a byte isn't UTF-8",
  M4: 'a quote, list or comment is not closed, or a byte may not be there', M5: 'this keyword, block or kind of argument is not expected here',
  M6: 'the file ends inside MAP', M7: 'a malformed number or colour', M8: 'a value out of its range',
  M9: 'a required keyword or MAP is missing, or a shape has too few points', M10: 'a second keyword, key, or layer of that name',
  M11: 'over a limit of layers, classes, styles, features or points', M12: "something follows MAP's END",
  K1: 'the canonical text would have over 65,536 bytes', N2: 'this node still proposes another map: try again',
  N3: 'the last sequence is published', N4: 'the map needs a new round, and this node has none left',
};
const STATUSES = {
  403: 'Publishing is not allowed from here.', 411: 'The length is missing.', 413: 'The file is too long: a mapfile has at most 131,072 bytes.',
  503: "An allocation failed, or this node's tape failed.",
};

// Shows the line in which a byte offset lies, with the token there marked.
function mark(bytes, offset) {
  const from = offset === 0 ? 0 : Math.max(bytes.lastIndexOf(10, offset - 1) + 1, offset - 60);
  const line = bytes.indexOf(10, offset);
  const end = Math.min(line < 0 ? bytes.length : line, offset + 60);
  const after = bytes.subarray(offset, end).findIndex((it, k) => k > 0 && [9, 13, 32].includes(it));
  const stop = after < 0 ? end : offset + after;
  const marked = document.createElement('mark');
  marked.textContent = textOf(bytes.subarray(offset, stop)) || '(end)';
  byId('where').replaceChildren(textOf(bytes.subarray(from, offset)), marked, textOf(bytes.subarray(stop, end)));
  byId('where').hidden = false;
  return bytes.subarray(0, offset).filter((it) => it === 10).length + 1;
}

function answerOf(status, text, bytes) {
  const accepted = /^accepted for (\d+)$/.exec(text);
  if (status === 202 && accepted) {
    state.awaited = Number(accepted[1]);
    return `Accepted for sequence ${state.awaited}; not published yet.`;
  }
  const error = /^([MKN]\d+)(?: (\d+))?$/.exec(text);
  if (!error) return STATUSES[status] || `The server answered ${status}.`;
  const what = `${text}: ${MEANINGS[error[1]] || 'see docs/FAULTS.md'}`;
  return error[2] === undefined ? `${what}.` : `${what}, at byte ${error[2]}, line ${mark(bytes, Number(error[2]))}.`;
}

async function publish() {
  byId('where').hidden = true;
  const file = byId('file').files[0];
  if (!file) {
    byId('answer').textContent = 'Choose a mapfile first.';
    return;
  }
  const bytes = new Uint8Array(await file.arrayBuffer());
  try {
    const node = nodesHere()[0] || 0;
    const { status, bytes: answer } = await alone(() => ask(pathAt(node, 'publish'), { method: 'POST', body: bytes }));
    if (status === 502 || status === 504) throw new Silence();
    byId('answer').textContent = answerOf(status, textOf(answer).trim(), bytes);
  } catch (error) {
    byId('answer').textContent = wordsOf(error);
  }
}

// What has become of the map that was accepted: the node that took it says so, and no answer says which node that is.
function sayPublished() {
  if (state.awaited === null) return;
  const words = nodesHere().map((it) => state.nodes.get(it).proposal.split(' ')).filter((it) => Number(it[1]) === state.awaited);
  if (!words.length) return;
  byId('answer').textContent = words.every((it) => it[0] === 'published') ? `Published as sequence ${state.awaited}.`
    : `Another map was published as sequence ${state.awaited} than one that was proposed for it: look, and publish again.`;
  state.awaited = null;
}

// ---- the page

for (const id of ['sequence', 'other']) {
  byId(id).addEventListener('input', sayNumbers);
  byId(id).addEventListener('change', redraw);
}
byId('compare').addEventListener('change', redraw);
byId('tint').addEventListener('change', () => {
  byId('how').hidden = hasAddresses || !byId('tint').checked;
  redraw();
});
byId('format').addEventListener('change', redraw);
byId('crs').addEventListener('change', () => {
  forget('left', 'right');
  state.found.clear();
  sayOfMap();
  redraw();
});
byId('publish').addEventListener('click', publish);
for (const id of ['history', 'farm', 'publishing']) byId(id).hidden = !server.isFarm;
look();
