'use strict';
// Before the body is read: with WebGL 2 the plain plan is never drawn.
if (document.createElement('canvas').getContext('webgl2')) document.documentElement.classList.add('gl');
