import "config" as config;
import `lib/${config::name}` as lib;
import "setup";

export const LIMIT = config::limit ?? 10;
let total = 0;
let names = ["a", config::names[0], lib::text::first()];
export names as all;

for (name, i) in names {
    import lib::find(name) as item;
    if item::count > LIMIT { continue }
    switch item::kind {
        "sum" | 1..5 if item::ok => total += item::value * i,
        "file" => { import item::path as file; total += file::size(name) }
        _ => import item::other() as item
    }
}

let step = { import "steps" as steps; steps::next } + lib::step;
while total < LIMIT && !lib::is_done(total) {
    let step = -lib::step;
    total -= step;
    try { lib::check(total, step) } catch (err) {
        import "log" as log;
        log::out.write(`${text_of(err)}: ${total} of ${log::limit}`);
        break;
    }
}

export total;
let total = total + step;
export let result = #{total: total, first: lib::make(total)?.value[0]};
lib::results[names.len()] = result;
global::last = lib::results
