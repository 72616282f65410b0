let a = #{ b: `${c}`
