// What this page forbids itself.

/**
 * Forbids this page, and the workers that it starts from then on, every connection but to the addresses below these. A
 * policy that is added can only forbid more, and cannot be removed.
 * @param {string[]} [allowed]
 */
export function forbidConnections(allowed = []) {
  const meta = document.createElement('meta');
  const sources = allowed.length > 0 ? allowed.join(' ') : "'none'";
  meta.httpEquiv = 'Content-Security-Policy';
  meta.content = `connect-src ${sources}; img-src blob:; font-src 'none'; media-src 'none'; frame-src 'none'; form-action 'none'`;
  document.head.append(meta);
}
