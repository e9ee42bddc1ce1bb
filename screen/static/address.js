// What a page is asked for, in its address: loading it again, Back and a link keep it.

const address = () => new URLSearchParams(location.search);

/** The values that the address has for some names. */
export function fromAddress(names) {
  const asked = address();
  return Object.fromEntries(names.filter((name) => asked.get(name)).map((name) => [name, asked.get(name)]));
}

/** Sets values in the address; empty ones are taken out, and what else is asked for stays. */
export function toAddress(values) {
  const asked = address();
  for (const [name, value] of Object.entries(values)) {
    if (value) asked.set(name, value);
    else asked.delete(name);
  }
  const words = asked.toString();
  if (words !== address().toString()) history.replaceState(null, "", words ? `?${words}` : location.pathname);
}
