// The layer of the map that has the canvas.

const QUICK = 12;  // milliseconds: frames as quick as this are drawn again while the map moves

const CLOSE = 0.002;  // pixels in a centimetre: from here on a pixel is less than five metres

const CanvasLayer = L.Renderer.extend({
  initialize(draw) {
    L.Renderer.prototype.initialize.call(this, { padding: 0.4 });
    this._draw = draw;
    this.milliseconds = 0;
  },

  getEvents() {
    const events = L.Renderer.prototype.getEvents.call(this);
    events.move = this._onMove;
    return events;
  },

  _initContainer() {
    this._container = document.createElement("canvas");
    this._container.setAttribute("aria-hidden", "true");
    this._context = this._container.getContext("2d");
  },

  _destroyContainer() {
    cancelAnimationFrame(this._waiting);
    this._container.remove();
    delete this._container;
  },

  _onMove() {
    if (this.milliseconds < QUICK && !this._map._animatingZoom) this.redraw();
  },

  redraw() {
    cancelAnimationFrame(this._waiting);
    this._waiting = requestAnimationFrame(() => this._update());
  },

  _update() {
    if (!this._map || this._map._animatingZoom && this._bounds) return;
    L.Renderer.prototype._update.call(this);
    const box = this._bounds, size = box.getSize(), canvas = this._container, ratio = window.devicePixelRatio || 1;
    L.DomUtil.setPosition(canvas, box.min);
    canvas.width = Math.round(ratio * size.x);
    canvas.height = Math.round(ratio * size.y);
    canvas.style.width = size.x + "px";
    canvas.style.height = size.y + "px";
    this._context.setTransform(ratio, 0, 0, ratio, -ratio * box.min.x, -ratio * box.min.y);
    const begin = performance.now();
    this._draw(this._context, viewOf(this._map, box));
    this.milliseconds = performance.now() - begin;
  },
});

// How places become pixels of the map's layers, and which pixels are drawn.
function viewOf(map, box) {
  const { _a, _b, _c, _d } = map.options.crs.transformation, scale = map.options.crs.scale(map.getZoom()), origin = map.getPixelOrigin();
  return { ax: scale * _a / 100, bx: scale * _b - origin.x, ay: scale * _c / 100, by: scale * _d - origin.y,
    left: box.min.x, top: box.min.y, right: box.max.x, bottom: box.max.y, pixel: 1 / (window.devicePixelRatio || 1),
    close: scale * _a / 100 > CLOSE };
}

const crs = about.mercator ? L.CRS.EPSG3857 : L.CRS.Simple;

const placeOf = (x, y) => crs.projection.unproject(L.point(x / 100, y / 100));
