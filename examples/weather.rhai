/// A temperature in degrees Fahrenheit,
/// from one in degrees Celsius.
fn fahrenheit(celsius) {
    celsius * 9 / 5 + 32
}

    /** The mean of all readings,
        rounded to whole degrees;
          `()` if there are none.
     */
    fn mean(readings) {
        if readings.is_empty() { return }
        (readings.reduce(|sum, x| sum + x, 0) / readings.len()).round()
    }

/// A line for one day.
/** It begins with the day. */
/// See also: `mean`.
private fn line(day, readings) {
    let mean = mean(readings);
    if mean == () { return `${day}: no readings` }
    `${day}: ${fahrenheit(mean)} F`
}

/// The readings that are warmer than others
/// may be marked with `warm`.
fn array.warm(limit) { this.filter(|x| x > limit) }

let week = #{Mon: [3, 5, 4], Tue: [], Wed: [7, 9]};
for (day, i) in week.keys() { print(line(day, week[day].warm(i))) }
