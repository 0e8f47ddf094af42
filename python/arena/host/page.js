"use strict";
// Puts the status of now into the page every two seconds; while no answer comes, what was there stays.
const note = document.getElementById("note"), main = document.querySelector("main");
async function reload() {
  try {
    const reply = await fetch("status", {cache: "no-store"});
    if (!reply.ok) throw new Error("status " + reply.status);
    main.innerHTML = await reply.text();
    note.textContent = "";
  } catch (fault) {
    note.textContent = "This is not of now: arena metrics gives no answer (" + fault.message + ").";
  }
  setTimeout(reload, 2000);
}
setTimeout(reload, 2000);
