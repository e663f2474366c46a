// Asks the Temporal of a JavaScript engine. A question is a line `OP HEX`, the text as the hex of its UTF-8 bytes,
// `-` for the empty text. The answer is
//   OK PARTS               accepted, with the parts that were read
//   -                      refused: a RangeError
//   ERR NAME: MESSAGE      any other exception, which no text must cause
'use strict';

// Every string is made here: what Chromium reads of letters beyond ASCII depends on how a string was made (oracle/README.md).
const UTF8 = new TextDecoder('utf-8', { fatal: true, ignoreBOM: true });

function textOf(hex) {
  if (hex === '-') return '';
  const bytes = new Uint8Array(hex.length / 2);
  for (let i = 0; i < bytes.length; i++) bytes[i] = parseInt(hex.slice(2 * i, 2 * i + 2), 16);
  return UTF8.decode(bytes);
}

const SHOWN = { calendarName: 'always' };

const OPS = {
  // goals of the library: plain twice, zoned twice, instant, time, year-month, month-day
  plain: s => Temporal.PlainDateTime.from(s).toString(SHOWN),
  date: s => Temporal.PlainDate.from(s).toString(SHOWN),
  zoned: s => {
    const z = Temporal.ZonedDateTime.from(s, { offset: 'ignore' });
    return z.epochNanoseconds + ' ' + z.toString(SHOWN);
  },
  zuse: s => {
    const z = Temporal.ZonedDateTime.from(s, { offset: 'use' });
    return z.epochNanoseconds + ' ' + z.timeZoneId;
  },
  instant: s => String(Temporal.Instant.from(s).epochNanoseconds),
  time: s => Temporal.PlainTime.from(s).toString(),
  ym: s => Temporal.PlainYearMonth.from(s).toString(SHOWN),
  md: s => Temporal.PlainMonthDay.from(s).toString(SHOWN),
  // the calendar finder, and the reader of durations
  cal: s => new Temporal.PlainDate(1972, 1, 1).withCalendar(s).calendarId,
  dur: s => {
    const d = Temporal.Duration.from(s);
    return [d.sign, d.years, d.months, d.weeks, d.days, d.hours, d.minutes, d.seconds, d.milliseconds, d.microseconds, d.nanoseconds].join(' ');
  },
  // whether the engine knows a name, and how it writes it: no text is read here
  zonename: s => new Temporal.ZonedDateTime(0n, s).timeZoneId,
  calname: s => new Temporal.PlainDate(1972, 1, 1, s).calendarId,
};

function answer(line) {
  const [op, hex] = line.split(' ');
  try {
    return 'OK ' + OPS[op](textOf(hex));
  } catch (e) {
    return e instanceof RangeError ? '-' : ('ERR ' + e.name + ': ' + e.message).replace(/[\r\n]/g, ' ');
  }
}
