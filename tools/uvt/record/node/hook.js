'use strict';
// What the JavaScript of a program in node does, for the recorder: ./uvt record has node load this file before the program.
//
// It tells of two things, in lines J of the log (docs/RECORD.md, "The log"). Of each timer and immediate: which function it calls and which
// line asked for it, when it is called, when that ends, and when it is cleared. And which functions V8 finds under way, a look each
// millisecond (recorder/looks.c): so each long callback has names, be it of a server, a promise or a tick.
//
// UVT_LOOKS is how many microseconds lie between two looks, 1000 where nothing is said; 0 leaves them out.

(() => {
  // (into a program that runs already it comes by a script, which says so)
  const attached = process[Symbol.for('uvt')];
  const { UVT_LOG, UVT_RECORDER } = attached ?? process.env;
  const loaded = { exports: {} };
  try {
    if (!UVT_LOG || !UVT_RECORDER) return;
    process.dlopen(loaded, UVT_RECORDER);
  } catch {
    return;
  }
  const { born, meant, known, begun, begin, end, gone, referenced, look, is } = loaded.exports;
  if (!is()) return;
  const { threadId } = require('worker_threads');
  const { apply } = Reflect;
  const TIMER = 0, IMMEDIATE = 2, REPEATS = 1, UNREFERENCED = 2, PUT_OFF = 4;

  // ---- timers and immediates
  //
  // node keeps the callback of each in a property, which it sets as it makes it, and to null as it is cleared or was called. Here that is a
  // property of the prototype, and so each of them passes by, those of node's own too. What else they have is as it was.

  const number = Symbol('uvt number'), called = Symbol('uvt called'), isUnder = Symbol('uvt under'), keeps = Symbol('uvt keeps'), putOff = Symbol('uvt put off');

  function watch(prototype, property, kind) {
    Object.defineProperty(prototype, property, {
      configurable: true,
      enumerable: true,
      get() {
        return this[called];
      },
      set(callback) {
        const held = this;
        if (typeof callback !== 'function') {
          // (it may clear itself: that tells something of an interval)
          if (held[number] && (!held[isUnder] || held._repeat)) gone(held[number]);
          held[called] = callback;
          return;
        }
        held[called] = function uvt_called(...words) {
          const flags = (held._repeat ? REPEATS : 0) + (kind === TIMER && !held.hasRef() ? UNREFERENCED : 0) + (held[putOff] ? PUT_OFF : 0);
          begin(held[number], kind === TIMER ? held._idleStart ?? -1 : -1, held._idleTimeout ?? 0, flags);
          held[isUnder] = true;
          try {
            return apply(callback, this, words);
          } finally {
            held[isUnder] = false;
            end(held[number]);
            // (node sets it to null behind the one call of an immediate)
            if (kind === IMMEDIATE) held[number] = 0;
          }
        };
        held[isUnder] = false;
        if (held[number]) return;
        // (node starts it behind this)
        if (kind === TIMER && held._idleTimeout > 0) held._idleTimeout = meant(held._idleTimeout);
        held[number] = born(kind, callback, held._idleTimeout ?? 0);
      },
    });
  }

  const timer = setTimeout(() => {}, 2 ** 31 - 1);
  begun(threadId, timer._idleStart);
  const immediate = setImmediate(() => {});
  const timers = Object.getPrototypeOf(timer), immediates = Object.getPrototypeOf(immediate);
  clearTimeout(timer);
  clearImmediate(immediate);
  // (its ms count anew from there)
  const { refresh } = timers;
  timers.refresh = {
    refresh() {
      if (!this[isUnder]) this[putOff] = true;
      return apply(refresh, this, []);
    },
  }.refresh;
  watch(timers, '_onTimeout', TIMER);
  watch(immediates, '_onImmediate', IMMEDIATE);
  // (whether it keeps node alive is a property of node's own, by a symbol)
  const refed = Object.getOwnPropertySymbols(timer).find((it) => it.description === 'refed');
  if (refed) {
    Object.defineProperty(timers, refed, {
      configurable: true,
      enumerable: true,
      get() {
        return this[keeps];
      },
      set(keepsNode) {
        // (null: it is over)
        if (typeof keepsNode === 'boolean' && this[number] && keepsNode !== (this[keeps] ?? true)) referenced(this[number], keepsNode ? 1 : 0);
        this[keeps] = keepsNode;
      },
    });
  }

  // ---- timers that were there before: of them V8 knows, as objects with that prototype

  function know(held) {
    const callback = held._onTimeout;
    if (held._destroyed || held[number] || typeof callback !== 'function' || !Object.hasOwn(held, '_onTimeout')) return;
    held[number] = known(held._repeat ? 1 : TIMER, callback, held._idleTimeout ?? 0, held._idleStart);
    delete held._onTimeout;
    held._onTimeout = callback;
  }

  function knowAll() {
    const { Session } = require('inspector');
    const session = new Session(), key = 'uvt timers';
    session.connect();
    const ask = (method, words) => {
      let found;
      session.post(method, words, (fault, answer) => (found = answer));
      return found;
    };
    globalThis[key] = { timers, know: (held) => held !== timers && know(held) };
    try {
      const { result } = ask('Runtime.evaluate', { expression: `globalThis['${key}'].timers` });
      const { objects } = ask('Runtime.queryObjects', { prototypeObjectId: result.objectId });
      const each = `function () { for (const it of this) globalThis['${key}'].know(it); }`;
      ask('Runtime.callFunctionOn', { objectId: objects.objectId, functionDeclaration: each });
    } finally {
      delete globalThis[key];
      session.disconnect();
    }
  }

  look(threadId);
  // (node asks for an immediate where one of these functions is collected as garbage, at a moment of V8's own: so all of them are kept)
  process.on('exit', () => loaded.exports.unlook());
  try {
    if (attached) knowAll();
  } catch {
    // (a node without its inspector: the others have their names)
  }
})();
