// Whether all tiles of a map are loaded. A body of a function of the map's name.
const it = state.maps[arguments[0]];
const tiles = it && it.tiles ? Object.values(it.tiles._tiles) : [];
return tiles.length > 0 && tiles.every((tile) => tile.loaded && tile.current) && it.old.length === 0;
