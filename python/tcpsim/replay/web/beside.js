'use strict';
// A page of tcpsim-replay with two runs, each in a frame of its own, under one clock.

const FRAMES = ['first', 'second'].map(id => document.getElementById(id));

// Waits until both frames show their runs.
(function wait() {
  const pages = FRAMES.map(({contentWindow}) => contentWindow?.page);
  const failed = FRAMES.map(({contentDocument}) => contentDocument?.documentElement?.dataset.failed).find(Boolean);
  if (failed) { document.documentElement.dataset.failed = failed; return; }
  if (!pages.every(Boolean)) { setTimeout(wait, 30); return; }
  const told = time => { document.documentElement.dataset.time = time; };
  const jumped = time => history.replaceState(null, '', `#time=${time}`), asked = /^#time=(\d{1,18})$/.exec(location.hash);
  window.clock = new Clock(pages, {at: id => document.getElementById(id), windows: [window, ...FRAMES.map(({contentWindow}) => contentWindow)], told, jumped});
  if (asked) window.clock.go(+asked[1]);
  document.documentElement.dataset.ready = 1;
})();
