interface Item { name: string; price: number }
const items: Item[] = [{ name: "apple", prize: 3 }];
function total(list: Item[]): number {
    let sum: string = 0;
    for (const item of list) { sum += item.cost; }
    return sum;
}
total(items, 5);
missing();
const x: number = "ü" + 1;
items = [];
class Shop implements Item { name = 3 }
let y = total;
y.call(1);
