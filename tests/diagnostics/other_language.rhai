if a === b { c }
