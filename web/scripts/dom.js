/**
 * Returns the element with an id.
 * @param {string} id
 * @returns {HTMLElement}
 */
export function byId(id) {
  return document.getElementById(id);
}

/**
 * Creates an element.
 * @param {string} tag
 * @param {Record<string, string>} attributes
 * @param {...(Node | string)} children
 * @returns {HTMLElement}
 */
export function create(tag, attributes = {}, ...children) {
  const element = document.createElement(tag);
  for (const [name, value] of Object.entries(attributes)) element.setAttribute(name, value);
  element.append(...children);
  return element;
}

/**
 * Sets the text of an element if it differs, so that screen readers do not repeat a status.
 * @param {Element} element
 * @param {string} text
 */
export function setText(element, text) {
  if (element.textContent !== text) element.textContent = text;
}

/**
 * Saves bytes as a file.
 * @param {Uint8Array} bytes
 * @param {string} name
 * @param {string} type
 */
export function saveFile(bytes, name, type) {
  const url = URL.createObjectURL(new Blob([bytes], { type }));
  create("a", { href: url, download: name }).click();
  setTimeout(() => URL.revokeObjectURL(url), 10_000);
}

/**
 * Copies a text to the clipboard, and reports this in a status element.
 * @param {string} text
 * @param {Element} status
 * @param {string} name what is copied
 */
export async function copyText(text, status, name) {
  try {
    await navigator.clipboard.writeText(text);
    setText(status, `${name} copied.`);
  } catch {
    setText(status, "The browser does not allow this page to copy.");
  }
}

/**
 * Reports whether files are dragged, and not a text.
 * @param {DragEvent} event
 * @returns {boolean}
 */
export function hasFiles(event) {
  return event.dataTransfer?.types.includes("Files") ?? false;
}

/**
 * Makes an element accept one dropped file.
 * @param {Element} element
 * @param {(file: File) => void} accept
 */
export function acceptDrops(element, accept) {
  for (const type of ["dragenter", "dragover"]) {
    element.addEventListener(type, (event) => {
      if (!hasFiles(event)) return;
      event.preventDefault();
      element.classList.add("dropping");
    });
  }
  for (const type of ["dragleave", "drop"]) element.addEventListener(type, () => element.classList.remove("dropping"));
  element.addEventListener("drop", (event) => {
    if (!hasFiles(event)) return;
    event.preventDefault();
    accept(event.dataTransfer.files[0]);
  });
}
