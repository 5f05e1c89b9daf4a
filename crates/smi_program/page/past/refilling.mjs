// Drawing again what may have the keyboard in it.

/** Puts elements in the place of those that are there, and leads the keyboard back to where it was.
 * @param {any} element @param {any[]} children */
export function refill(element, children) {
  const active = /** @type {any} */ (document.activeElement), key = element.contains(active) ? active.dataset.key : "";
  element.replaceChildren(...children);
  const again = key && [...element.querySelectorAll("[data-key]")].find((it) => it.dataset.key === key);
  if (again) again.focus();
}
