export function total(basket) {
  let sum = 0;
  for (const item in basket) {
    sum += item.price;
  }
  return summ;
}
