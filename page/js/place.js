// Where the person is: the part of the address after #, as `table/bob/orders`. Draws nothing.

export const VIEWS = ['table', 'policy', 'clerks', 'maildrops', 'history'];

export function placeInHash() {
  try {
    return decodeURIComponent(location.hash.slice(1)).split('/');
  } catch {
    return [];
  }
}
