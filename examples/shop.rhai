import "tax" as tax;

const CURRENCY = "EUR";
let log = [];
let rebate = 10;

fn item(name, price, count) {
    #{name: name, price: price, count: count, tags: []}
}

fn map.tag(word) {
    if !(word in this.tags) { this.tags.push(word) }
    this
}

fn map.total() { this.price * this.count }

private fn sum(list, part) {
    let sum = 0;
    for x in list { sum += part.call(x) }
    sum
}

let stock = [
    item("pen", 2, 100),
    item("ink", 15, 8).tag("wet"),
    #{name: "desk", price: 240, count: 1, tags: ["large", "new"]},
];
let price = |x| x.total() - x.total() * rebate / 100;
let note = |text| { log.push(text); log.len() };

for (x, i) in stock {
    let kind = switch x.price {
        0 => "free",
        1..20 if x.count > 50 => "bulk",
        1..=20 => "small",
        _ => "large"
    };
    if kind == "large" { x.tag(kind) } else if x.count == 0 { continue }
    note.call(`${i + 1}. ${x.name}: ${price.call(x)} ${CURRENCY} (${kind})`);
}

let left = sum(stock, |x| x.count);
while left > 0 && stock.some(|x| x.count > left / 2) {
    left -= 1;
    stock.retain(|x| x.price * left >= rebate);
}

let duty = |rate| |x| tax::of(x.total(), rate ?? tax::rates["full"]);
let bill = stock.map(duty.call(19)).reduce(|a, b| a + b, 0);
try { tax::send(bill, CURRENCY) } catch (err) { note.call(`${err}: ${bill}`) }
