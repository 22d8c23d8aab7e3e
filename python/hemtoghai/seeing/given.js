// What the server gives the page of ./show studio: the show's name, the words of the language, and how it was started.

export const given = JSON.parse(document.getElementById("given").textContent);
