"use strict";
// One part of a job, in a worker.
importScripts("/steps.js");
onmessage = async ({ data }) => {
  try { postMessage(await run(data)); } catch (e) { postMessage({ fault: nameOf(e) + ": " + messageOf(e) + " " + (e && e.stack) }); }
};
